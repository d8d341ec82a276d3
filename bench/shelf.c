// The volume that the benchmark works on, laid out by the paper's entry format.
#include "shelf.h"

#include <stddef.h>
#include <stdio.h>
#include <string.h>

enum { SPARE = 6 };

// Bytes of a block number.
static uint32_t width_of(const struct shelf *s)
{
    return s->total > 256 ? 2 : 1;
}

uint32_t places_of(const struct shelf *s)
{
    return MAP_BYTES / width_of(s);
}

uint32_t extents_of(const struct shelf *s)
{
    return s->block / (1024 * width_of(s));
}

uint32_t number_at(const struct shelf *s, const uint8_t *entry, uint32_t place)
{
    const uint8_t *at = entry + MAP + width_of(s) * place;
    return width_of(s) == 1 ? at[0] : at[0] + 256u * at[1];
}

void lay_number(const struct shelf *s, uint8_t *entry, uint32_t place, uint32_t block)
{
    for (uint32_t k = 0; k < width_of(s); k++)
        entry[MAP + width_of(s) * place + k] = (uint8_t)(block >> 8 * k);
}

size_t drive_bytes(const struct shelf *s)
{
    return s->total > 256 ? 544 : 64;
}

// An eight-inch floppy: sectors of a track, reserved tracks, and the sector of each place of a track.
enum { SECTORS = 26, RESERVED = 2, IMAGE_BYTES = 77 * SECTORS * RECORD };

static size_t start(uint32_t q)
{
    static const uint8_t sector[SECTORS] = {1, 7, 13, 19, 25, 5, 11, 17, 23, 3, 9, 15, 21, 2, 8, 14, 20, 26, 6, 12, 18, 24, 4, 10, 16, 22};
    return ((RESERVED + q / SECTORS) * SECTORS + sector[q % SECTORS] - 1u) * RECORD;
}

uint8_t *entry_in(struct shelf *s, uint32_t slot)
{
    if (s->placing == 0)
        return s->volume + (size_t)slot * ENTRY;
    return s->volume + start(slot / 4) + slot % 4 * ENTRY;
}

void make_floppy(struct shelf *s)
{
    static uint8_t volume[IMAGE_BYTES];
    memcpy(volume, s->volume, s->bytes);
    memset(s->volume, 0xE5, IMAGE_BYTES);
    for (uint32_t q = 0; q < s->bytes / RECORD; q++)
        memcpy(s->volume + start(q), volume + (size_t)q * RECORD, RECORD);
    s->placing = 1;
    s->bytes = IMAGE_BYTES;
}

void copy_shelf(struct shelf *to, const struct shelf *from)
{
    memcpy(to, from, offsetof(struct shelf, volume) + from->bytes);
}

static void lay_name(uint8_t *to, const char *stem, unsigned number, const char *type)
{
    char text[24];
    snprintf(text, sizeof text, "%s%04u%s", stem, number % 10000, type);
    memcpy(to, text, NAME);
}

void band_name(uint8_t *name, unsigned file)
{
    lay_name(name, "BAND", file, "TXT");
}

// An entry without blocks, of user 0 in about every second slot; one in four is of a later extent.
static void other_entry(uint8_t *e, uint32_t slot)
{
    static const uint8_t users[] = {0, 1, 0, 2};
    memset(e, 0, ENTRY);
    e[0] = users[slot / 3 % 4];
    lay_name(e + 1, slot % 2 ? "BAND" : "BLAT", slot, "BAK");
    e[12] = slot % 4 == 1 ? 5 : 0;
}

// Group k of a worked file that has so many records from block `first` on.
static void worked_entry(const struct shelf *s, uint8_t *e, unsigned file, uint32_t k, uint32_t first, uint32_t records)
{
    uint32_t in_block = s->block / RECORD, in_entry = places_of(s) * in_block;
    uint32_t end = records < (k + 1) * in_entry ? records : (k + 1) * in_entry;
    uint32_t extent = (end - 1) / 128;
    memset(e, 0, ENTRY);
    band_name(e + 1, file);
    e[12] = extent % 32;
    e[14] = (uint8_t)(extent / 32);
    e[15] = (uint8_t)((end - 1) % 128 + 1);
    for (uint32_t n = k * in_entry; n < end; n += in_block)
        lay_number(s, e, (n - k * in_entry) / in_block, first + n / in_block);
}

static void fill_data(struct shelf *s)
{
    uint32_t x = 1;
    for (size_t i = (size_t)s->directory * s->block; i < s->bytes; i++) {
        x = x * 1664525u + 1013904223u;
        s->volume[i] = (uint8_t)(x >> 24);
    }
}

void fill_shelf(struct shelf *s, uint32_t block, uint32_t total, uint32_t directory)
{
    s->block = block;
    s->total = total;
    s->directory = directory;
    s->placing = 0;
    s->slots = directory * block / ENTRY;
    s->bytes = (size_t)total * block;
    for (uint32_t slot = 0; slot < s->slots; slot++) {
        if (slot % 64 == 63 || slot == s->slots / 2 + 1)
            memset(s->volume + (size_t)slot * ENTRY, 0xE5, ENTRY);
        else
            other_entry(s->volume + (size_t)slot * ENTRY, slot);
    }
    uint32_t blocks = (total - directory - SPARE) / FILES;
    uint32_t groups = (blocks + places_of(s) - 1) / places_of(s), entries = FILES * groups;
    for (uint32_t i = 0; i < entries; i++) {
        uint32_t slot = i * (s->slots - 1) / (entries - 1), file = i % FILES;
        worked_entry(s, s->volume + (size_t)slot * ENTRY, file + 1, i / FILES, directory + file * blocks,
                     blocks * (block / RECORD) - 3);
    }
    fill_data(s);
}

void fill_directory(struct shelf *s)
{
    for (uint32_t slot = 0; slot < s->slots; slot++)
        if (entry_in(s, slot)[0] == 0xE5)
            other_entry(entry_in(s, slot), slot);
}

void empty_directory(struct shelf *s)
{
    for (uint32_t slot = 0; slot < s->slots; slot++)
        memset(entry_in(s, slot), 0xE5, ENTRY);
}

void fill_long_files(struct shelf *s)
{
    for (uint32_t slot = 0; slot < s->slots; slot++) {
        uint8_t *e = entry_in(s, slot);
        uint32_t extent = slot / 16 * extents_of(s);
        memset(e, 0, ENTRY);
        e[0] = slot % 16;
        band_name(e + 1, 1);
        e[12] = extent % 32;
        e[14] = (uint8_t)(extent / 32);
    }
}
