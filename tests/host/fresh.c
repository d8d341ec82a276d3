// Request (xiv): a fresh disk from a worn one. The copy stands between two guards; what it must be is worked out by hand, or by the
// words of the request, one file after another and one extent after another.
#include "churawel.h"
#include "desk.h"

#include <stdio.h>
#include <string.h>

enum { EMPTY = 0xE5, EXTENTS = 512, TRACK = 26, IMAGE = 77 * TRACK * RECORD, DISK_MOST = 2048 * 4096 };

static uint8_t worn[DISK_MOST], worn_before[DISK_MOST];
static uint8_t copy[GUARD + DISK_MOST + GUARD], wanted[sizeof copy];
static uint8_t *const second = copy + GUARD, *const should = wanted + GUARD;

struct disk {
    uint32_t block, total, directory, placing;
    size_t bytes;
};

static struct disk straight(uint32_t block, uint32_t total, uint32_t directory)
{
    return (struct disk){block, total, directory, CHURAWEL_STRAIGHT, (size_t)block * total};
}

// The second volume and what it must be begin with the same bytes, which differ from E5H and from the first's.
static void other_bytes(size_t bytes)
{
    memset(copy, 0x5A, sizeof copy);
    for (size_t i = 0; i < bytes; i++)
        second[i] = (uint8_t)(i % 229 + i / 4096);
    memcpy(wanted, copy, sizeof copy);
}

// One case: the answer, every byte of both volumes, and the guards.
static void copies(const char *what, struct disk d, size_t first_bytes, size_t second_bytes, uint32_t number, uint32_t value)
{
    memcpy(worn_before, worn, sizeof worn);
    uint32_t is = churawel_fresh_copy(d.block, d.total, d.directory, d.placing, worn, first_bytes, second, second_bytes);
    verdict(what, is == (number | value << 16) && memcmp(copy, wanted, sizeof copy) == 0 && memcmp(worn, worn_before, sizeof worn) == 0);
}

// An entry by its slot: user, name, extent, rc, and three numbers of its map.
static void lay(uint8_t *volume, const struct disk *d, size_t slot, uint8_t user, const char *name, unsigned extent, uint8_t rc,
                const unsigned *map)
{
    uint8_t *e = volume + slot * ENTRY;
    size_t width = d->total > 256 ? 2 : 1;
    memset(e, 0, ENTRY);
    e[0] = user;
    memcpy(e + 1, name, 11);
    e[12] = (uint8_t)(extent % 32);
    e[14] = (uint8_t)(extent / 32);
    e[15] = rc;
    for (size_t p = 0; p < 3; p++) {
        e[16 + p * width] = (uint8_t)map[p];
        if (width == 2)
            e[17 + p * width] = (uint8_t)(map[p] >> 8);
    }
}

#define LAY(volume, d, slot, user, name, extent, rc, ...) lay(volume, d, slot, user, name, extent, rc, (const unsigned[3]){__VA_ARGS__})

static void blank(uint8_t *volume, size_t bytes)
{
    memset(volume, EMPTY, bytes);
}

// Every byte of block b is b.
static void numbered_blocks(struct disk d)
{
    blank(worn, d.bytes);
    for (uint32_t b = d.directory; b < d.total; b++)
        memset(worn + (size_t)b * d.block, (int)b, d.block);
}

#define SIGLA "SIGLA   TXT"
#define COLLA "COLLA   TXT"

// The second extent of SIGLA.TXT stands before its first, COLLA.TXT between them; an erased entry; blocks 1 and 6 are free.
static void lay_worn(struct disk d)
{
    numbered_blocks(d);
    LAY(worn, &d, 0, 0, SIGLA, 1, 4, 5, 0, 0);
    LAY(worn, &d, 1, EMPTY, SIGLA, 5, 9, 1, 0, 6);
    LAY(worn, &d, 2, 0, COLLA, 0, 21, 3, 0, 2);
    LAY(worn, &d, 3, 0, SIGLA, 0, 128, 7, 0, 4);
}

static void by_hand(void)
{
    static const uint8_t blocks[] = {7, 4, 5, 3, 2, EMPTY, EMPTY};
    struct disk d = straight(1024, 8, 1);
    lay_worn(d);
    other_bytes(d.bytes);
    blank(should, d.bytes);
    LAY(should, &d, 0, 0, SIGLA, 0, 128, 1, 0, 2);
    LAY(should, &d, 1, 0, SIGLA, 1, 4, 3, 0, 0);
    LAY(should, &d, 2, 0, COLLA, 0, 21, 4, 0, 5);
    for (size_t b = 0; b < COUNT(blocks); b++)
        memset(should + (b + 1) * 1024, blocks[b], 1024);
    copies("a worn disk: in good order, two blocks free", d, d.bytes, d.bytes, 0, 2);
    memcpy(worn, second, d.bytes);
    memset(second, 0x11, d.bytes);
    copies("the copy copied: the same bytes, whatever stood there", d, d.bytes, d.bytes, 0, 2);
}

// Extent 32 has s2 1 and ex 0. Its entry stands below that of extent 5, which goes first all the same.
static void by_extent_and_not_by_ex(void)
{
    static const uint8_t blocks[] = {2, 4, 6, EMPTY, EMPTY, EMPTY, EMPTY};
    struct disk d = straight(1024, 8, 1);
    numbered_blocks(d);
    LAY(worn, &d, 0, 0, SIGLA, 32, 9, 6, 0, 0);
    LAY(worn, &d, 1, 0, SIGLA, 5, 128, 2, 0, 4);
    other_bytes(d.bytes);
    blank(should, d.bytes);
    LAY(should, &d, 0, 0, SIGLA, 5, 128, 1, 0, 2);
    LAY(should, &d, 1, 0, SIGLA, 32, 9, 3, 0, 0);
    for (size_t b = 0; b < COUNT(blocks); b++)
        memset(should + (b + 1) * 1024, blocks[b], 1024);
    copies("extent 5 goes before extent 32, whose ex is 0", d, d.bytes, d.bytes, 0, 4);
}

// The marks of bytes 9 and 10 are top bits of the type: T and X.
static void marks_kept(void)
{
    struct disk d = straight(1024, 8, 1);
    numbered_blocks(d);
    LAY(worn, &d, 3, 7, "SIGLA   \xD4\xD8T", 0, 128, 5, 0, 0);
    other_bytes(d.bytes);
    blank(should, d.bytes);
    LAY(should, &d, 0, 7, "SIGLA   \xD4\xD8T", 0, 128, 1, 0, 0);
    memset(should + 1024, 5, 1024);
    copies("a read-only system file of user 7 stays one", d, d.bytes, d.bytes, 0, 6);
}

static void refused(void)
{
    struct disk d = straight(1024, 8, 1), outside = straight(1024, 8, 8);
    lay_worn(d);
    other_bytes(d.bytes);
    copies("a geometry outside the rules: 32 before all others", outside, 7, 9, CHURAWEL_REFUSED_CLOSED, 0);
    copies("the first too short: 33", d, d.bytes - 1, 9, CHURAWEL_REFUSED_VOLUME_LENGTH, 0);
    copies("the first too long: 33", d, d.bytes + 1, d.bytes, CHURAWEL_REFUSED_VOLUME_LENGTH, 0);
    worn[2 * ENTRY + 18] = 5;
    copies("a block of two files: 36 with the slot, before the second's length", d, d.bytes, 9, CHURAWEL_REFUSED_BAD_SLOT, 2);
    lay_worn(d);
    copies("the second too short: 33", d, d.bytes, d.bytes - 1, CHURAWEL_REFUSED_VOLUME_LENGTH, 0);
    copies("the second too long: 33", d, d.bytes, d.bytes + 1, CHURAWEL_REFUSED_VOLUME_LENGTH, 0);
    copies("the second empty: 33", d, d.bytes, 0, CHURAWEL_REFUSED_VOLUME_LENGTH, 0);
}

// ---- by the words of the request

static int same_file(const uint8_t *e, const uint8_t *f)
{
    int same = e[0] == f[0];
    for (size_t i = 1; i < 12; i++)
        same = same && (e[i] & 0x7F) == (f[i] & 0x7F);
    return same;
}

// Lays an entry with its blocks numbered from `next` on; the number behind them.
static uint32_t lay_copied(struct disk d, size_t slot, const uint8_t *e, uint32_t next)
{
    size_t width = d.total > 256 ? 2 : 1;
    uint8_t *to = should + slot * ENTRY;
    memcpy(to, e, ENTRY);
    for (size_t at = 16; at < ENTRY; at += width) {
        uint32_t b = e[at] + (width == 2 ? 256u * e[at + 1] : 0);
        if (b == 0)
            continue;
        memcpy(should + (size_t)next * d.block, worn + (size_t)b * d.block, d.block);
        to[at] = (uint8_t)next;
        if (width == 2)
            to[at + 1] = (uint8_t)(next >> 8);
        next++;
    }
    return next;
}

// The copy that must be, and its free blocks; the disk is straight.
static uint32_t in_good_order(struct disk d)
{
    size_t slots = (size_t)d.directory * d.block / ENTRY, laid = 0;
    uint32_t next = d.directory;
    blank(should, d.bytes);
    for (size_t i = 0; i < slots; i++) {
        const uint8_t *e = worn + i * ENTRY;
        size_t lowest = 0;
        while (lowest < i && !same_file(worn + lowest * ENTRY, e))
            lowest++;
        if (*e == EMPTY || lowest < i)
            continue;
        for (unsigned extent = 0; extent < EXTENTS; extent++)
            for (size_t k = i; k < slots; k++) {
                const uint8_t *f = worn + k * ENTRY;
                if (f[12] + 32u * f[14] == extent && same_file(e, f))
                    next = lay_copied(d, laid++, f, next);
            }
    }
    return d.total - next;
}

// Files of several extents whose entries stand in disorder over the whole directory, with every second block from the last down.
static void scattered(struct disk d)
{
    size_t slots = (size_t)d.directory * d.block / ENTRY;
    uint32_t block = d.total, width = d.total > 256 ? 2 : 1;
    numbered_blocks(d);
    for (size_t slot = 0; slot < slots; slot += 1 + slot % 3) {
        char name[16];
        unsigned extent = (unsigned)((slots - slot) % 7) * (d.block / 1024 / width);
        unsigned map[3] = {0, 0, 0};
        snprintf(name, sizeof name, "BAND%04uTXT", (unsigned)(slot / 14 * 14));
        for (size_t p = slot % 2; p < 3; p++)
            if (block >= d.directory + 2)
                map[p] = block -= 2;
        lay(worn, &d, slot, (uint8_t)(slot % 14 / 7), name, extent, (uint8_t)(slot % 129), map);
    }
}

static void by_the_words(void)
{
    static const struct {
        uint32_t block, total, directory;
    } disks[] = {{1024, 2, 1}, {1024, 40, 1}, {1024, 256, 16}, {2048, 160, 2}, {4096, 256, 16}, {2048, 257, 1}, {4096, 2048, 16}};
    for (size_t k = 0; k < COUNT(disks); k++) {
        char what[120];
        struct disk d = straight(disks[k].block, disks[k].total, disks[k].directory);
        scattered(d);
        other_bytes(d.bytes);
        uint32_t free_blocks = in_good_order(d);
        snprintf(what, sizeof what, "a scattered disk of %u blocks of %u, %u of directory: %u free", d.total, d.block, d.directory,
                 free_blocks);
        copies(what, d, d.bytes, d.bytes, 0, free_blocks);
    }
}

// ---- an eight-inch image

static size_t start(size_t q)
{
    static const uint8_t sectors[TRACK] = {1, 7,  13, 19, 25, 5, 11, 17, 23, 3,  9,  15, 21,
                                           2, 8,  14, 20, 26, 6, 12, 18, 24, 4,  10, 16, 22};
    return ((2 + q / TRACK) * TRACK + sectors[q % TRACK] - 1) * RECORD;
}

static void on_a_floppy(void)
{
    static uint8_t volume[243 * 1024];
    struct disk d = straight(1024, 243, 2), floppy = {1024, 243, 2, CHURAWEL_EIGHT_INCH, IMAGE};
    scattered(d);
    uint32_t free_blocks = in_good_order(d);
    memcpy(volume, should, sizeof volume);
    other_bytes(IMAGE);
    for (size_t q = 0; q < sizeof volume / RECORD; q++)
        memcpy(should + start(q), volume + q * RECORD, RECORD);
    memcpy(volume, worn, sizeof volume);
    memset(worn, 0x77, IMAGE);
    for (size_t q = 0; q < sizeof volume / RECORD; q++)
        memcpy(worn + start(q), volume + q * RECORD, RECORD);
    copies("a floppy: as on the unskewed volume, and the second's reserved tracks and last six records stay", floppy, IMAGE, IMAGE, 0,
           free_blocks);
    copies("a floppy's length for a straight disk: 33", d, IMAGE, IMAGE, CHURAWEL_REFUSED_VOLUME_LENGTH, 0);
}

void fresh_disks(void)
{
    by_hand();
    by_extent_and_not_by_ex();
    marks_kept();
    refused();
    by_the_words();
    on_a_floppy();
}
