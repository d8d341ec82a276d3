// An image over the seam: its bytes, its drive, the calls on it, and its files as the listing has them.
#include "tool.h"

#include <stdio.h>
#include <stdlib.h>
#include <string.h>

// Where things stand in a control block, and the bit of an attribute.
enum { FCB_NAME = 1, FCB_READ_ONLY = 9, FCB_SYSTEM = 10, FCB_NEW_NAME = 17, FCB_RECORD = 33, TOP_BIT = 0x80 };

struct disk *read_disk(const struct options *options, const char *path, bool to_change)
{
    struct disk *disk = room_for(sizeof *disk);
    disk->path = path;
    disk->original = open_image(path, to_change);
    disk->geometry = geometry_of_image(options, path, (uint64_t)disk->original.state.st_size);
    disk->volume = read_all(disk->original.file, path, VOLUME_MOST + 1);
    return disk;
}

uint32_t log_in(const struct geometry *g, struct bytes volume, uint8_t *drive)
{
    return churawel_log_in(g->block_bytes, g->blocks, g->directory_blocks, g->placing, volume.at, volume.count, drive,
                           churawel_drive_bytes(g->blocks));
}

struct disk *open_disk(const struct options *options, const char *path, bool to_change)
{
    struct disk *disk = read_disk(options, path, to_change);
    const char *why = inspect(disk);
    if (why != NULL)
        refuse("%s: %s", path, why);
    uint32_t number = CHURAWEL_NUMBER(log_in(&disk->geometry, disk->volume, disk->drive));
    if (number != 0)
        refuse_by(path, number, "");
    return disk;
}

void inspect_written(struct disk *disk, const char *path)
{
    const char *why = inspect(disk);
    if (why != NULL)
        refuse("%s: what was to be written: %s", path, why);
}

void store_disk(struct disk *disk)
{
    inspect_written(disk, disk->path);
    replace_file(disk->original.path, &disk->original.state, disk->volume);
    if (disk->original.state.st_nlink > 1)
        note("%s had another name on this machine (a hard link), and under that the old disk stays", disk->path);
}

// ---- the files

uint32_t number_at(const uint8_t *bytes, int count)
{
    uint32_t number = 0;
    while (count-- > 0)
        number = number << 8 | bytes[count];
    return number;
}

bool next_file(const struct disk *disk, uint32_t *slot, struct listed *file)
{
    uint8_t line[CHURAWEL_FILE_BYTES];
    uint32_t answer = churawel_file(disk->drive, churawel_drive_bytes(disk->geometry.blocks), disk->volume.at,
                                    disk->volume.count, *slot, line, sizeof line);
    if (CHURAWEL_NUMBER(answer) == CHURAWEL_REFUSED_NO_MATCH)
        return false;
    if (CHURAWEL_NUMBER(answer) != 0)
        refuse_by(disk->path, CHURAWEL_NUMBER(answer), "");
    *slot = CHURAWEL_VALUE(answer) + 1;
    file->user = line[0];
    memcpy(file->name, line + 1, NAME_BYTES);
    file->read_only = line[12] != 0;
    file->system = line[13] != 0;
    file->records = number_at(line + 14, 4);
    file->blocks = number_at(line + 18, 2);
    return true;
}

bool find_file(const struct disk *disk, const struct name *pattern, struct listed *file)
{
    uint32_t slot = 0;
    while (next_file(disk, &slot, file))
        if (file->user == pattern->user && matches(pattern, file->name))
            return true;
    return false;
}

// ---- the calls

static uint32_t call_with(struct disk *disk, uint8_t function, uint8_t parameter)
{
    return churawel_call(function, parameter, disk->drive, churawel_drive_bytes(disk->geometry.blocks), disk->volume.at,
                         disk->volume.count, disk->fcb, sizeof disk->fcb, disk->buffer, sizeof disk->buffer);
}

void aim(struct disk *disk, const struct name *name)
{
    disk->aimed = *name;
    memset(disk->fcb, 0, sizeof disk->fcb);
    memcpy(disk->fcb + FCB_NAME, name->bytes, NAME_BYTES);
    uint32_t answer = call_with(disk, CHURAWEL_FN_USER, name->user);
    if (answer != 0)
        refuse_by(disk->path, CHURAWEL_NUMBER(answer), "");
}

void aim_at(struct disk *disk, struct name typed)
{
    struct listed file;
    struct name capitals = in_capitals(typed);
    aim(disk, find_file(disk, &typed, &file) ? &typed : &capitals);
}

uint32_t call(struct disk *disk, uint8_t function)
{
    return call_with(disk, function, 0);
}

enum { FURTHER_MOST = SHOWN_MOST + 32 };

// What may help whom a call refused: another user's file of that name, or which of several files is read-only.
static const char *further_of(const struct disk *disk, uint32_t number, char *further)
{
    struct listed file;
    uint32_t slot = 0;
    char shown[SHOWN_MOST];
    bool missing = number == CHURAWEL_REFUSED_NO_MATCH || number == CHURAWEL_REFUSED_NO_FILE;
    bool one_of_several = number == CHURAWEL_REFUSED_READ_ONLY && is_pattern(&disk->aimed);
    *further = '\0';
    while (*further == '\0' && (missing || one_of_several) && next_file(disk, &slot, &file)) {
        shown_file(file.user, file.name, shown);
        if (missing && matches(&disk->aimed, file.name))
            snprintf(further, FURTHER_MOST, "; another user has one: %s", shown);
        else if (one_of_several && file.user == disk->aimed.user && file.read_only && matches(&disk->aimed, file.name))
            snprintf(further, FURTHER_MOST, "; it is %s", shown);
    }
    return further;
}

void refuse_aimed(const struct disk *disk, uint32_t number, const char *about)
{
    char further[FURTHER_MOST];
    refuse_by(about, number, further_of(disk, number, further));
}

void accept_answer(const struct disk *disk, uint8_t function, uint32_t answer, const char *about)
{
    uint32_t number = CHURAWEL_NUMBER(answer);
    if (churawel_succeeded(function, answer))
        return;
    // Make answers 255 where a write answers 5.
    if (function == CHURAWEL_FN_MAKE && number == CHURAWEL_REFUSED_NO_MATCH)
        refuse("%s: %s (%u)", about, words_of(CHURAWEL_REFUSED_NO_SLOT), number);
    if (function == CHURAWEL_FN_MAKE && number == CHURAWEL_REFUSED_EXISTS)
        refuse_by(about, number, "; --replace replaces it");
    refuse_aimed(disk, number, about);
}

void must(struct disk *disk, uint8_t function, const char *about)
{
    accept_answer(disk, function, call(disk, function), about);
}

void set_new_name(struct disk *disk, const struct name *name)
{
    memcpy(disk->fcb + FCB_NEW_NAME, name->bytes, NAME_BYTES);
}

void set_attributes(struct disk *disk, const struct listed *file)
{
    disk->fcb[FCB_READ_ONLY] |= file->read_only ? TOP_BIT : 0;
    disk->fcb[FCB_SYSTEM] |= file->system ? TOP_BIT : 0;
}

void set_record(struct disk *disk, uint32_t record)
{
    disk->fcb[FCB_RECORD] = (uint8_t)record;
    disk->fcb[FCB_RECORD + 1] = (uint8_t)(record >> 8);
    disk->fcb[FCB_RECORD + 2] = (uint8_t)(record >> 16);
}

uint32_t record_set(const struct disk *disk)
{
    return number_at(disk->fcb + FCB_RECORD, 3);
}
