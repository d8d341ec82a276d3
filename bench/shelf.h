// The volume that the benchmark works on, and the two sides that are measured on it.
#ifndef SHELF_H
#define SHELF_H

#include <stddef.h>
#include <stdint.h>

enum { FILES = 8, RECORD = 128, SEVERAL = 16, ENTRY = 32, NAME = 11, MAP = 16, MAP_BYTES = 16, VOLUME_MOST = 8 * 1024 * 1024 };

// The proved calls, or those in plain C.
struct side {
    uint32_t (*log_in)(uint32_t, uint32_t, uint32_t, uint32_t, const uint8_t *, size_t, uint8_t *, size_t);
    uint32_t (*call)(uint8_t, uint8_t, uint8_t *, size_t, uint8_t *, size_t, uint8_t *, size_t, uint8_t *, size_t);
};

// A nearly full volume: user 0 works on eight files, BAND0001.TXT and so on, which have nearly all blocks and
// whose entries are spread from the first slot to the last; one slot in 64 is empty; the other slots have entries without
// blocks, half of them of user 0.
struct shelf {
    uint32_t block, total, directory, placing, slots;
    size_t bytes;
    uint8_t volume[VOLUME_MOST];
};

void fill_shelf(struct shelf *s, uint32_t block, uint32_t total, uint32_t directory);

// The same as the image of an eight-inch floppy: the shelf has 243 blocks of 1,024 bytes.
void make_floppy(struct shelf *s);

// The entry in a slot.
uint8_t *entry_in(struct shelf *s, uint32_t slot);

// The volume as it is, without what lies behind it.
void copy_shelf(struct shelf *to, const struct shelf *from);

// Block numbers of an entry, extents of an entry, and a number laid into a map: a byte each, two bytes above 256 blocks.
uint32_t places_of(const struct shelf *s);
uint32_t extents_of(const struct shelf *s);
uint32_t number_at(const struct shelf *s, const uint8_t *entry, uint32_t place);
void lay_number(const struct shelf *s, uint8_t *entry, uint32_t place, uint32_t block);

// No empty slot is left.
void fill_directory(struct shelf *s);

// No slot has an entry; and every slot has one of sixteen files, one for each user, their groups one after another. Neither has blocks.
void empty_directory(struct shelf *s);
void fill_long_files(struct shelf *s);

// The eleven bytes of a worked file's name.
void band_name(uint8_t *name, unsigned file);

// What a side is lent beside the volume; `pieces` is the buffer of a call of several records.
struct desk {
    uint8_t drive[544], fcb[36], buffer[RECORD], pieces[SEVERAL * RECORD];
};

// How many bytes of the drive are lent for this volume.
size_t drive_bytes(const struct shelf *s);

#endif
