// put and new: a file of this machine onto a disk, and an empty disk.
#include "tool.h"

#include <stdio.h>
#include <stdlib.h>
#include <string.h>
#include <unistd.h>

static struct name new_name(const char *path, const char *typed)
{
    const char *stroke = strrchr(path, '/');
    if (typed == NULL && strcmp(path, "-") == 0)
        wrong_use("what comes from standard input needs a name for its file");
    return in_capitals(name_of(typed != NULL ? typed : stroke == NULL ? path : stroke + 1));
}

// Each record in its turn, the last one filled up.
static void write_records(struct disk *disk, struct bytes bytes, uint8_t filler, const char *about)
{
    for (size_t at = 0; at < bytes.count; at += RECORD_BYTES) {
        size_t count = bytes.count - at < RECORD_BYTES ? bytes.count - at : RECORD_BYTES;
        memset(disk->buffer, filler, RECORD_BYTES);
        memcpy(disk->buffer, bytes.at + at, count);
        must(disk, CHURAWEL_FN_WRITE_SEQUENTIAL, about);
    }
}

// The file that is there goes, and is made anew; a system file stays one.
static void make_anew(struct disk *disk, const struct name *name, const char *about)
{
    struct listed old = {0};
    find_file(disk, name, &old);
    must(disk, CHURAWEL_FN_DELETE, about);
    must(disk, CHURAWEL_FN_MAKE, about);
    if (old.system) {
        set_attributes(disk, &old);
        must(disk, CHURAWEL_FN_ATTRIBUTES, about);
        aim(disk, name);
    }
}

static void make_file(struct disk *disk, const struct name *name, bool replace, const char *about)
{
    aim(disk, name);
    uint32_t answer = call(disk, CHURAWEL_FN_MAKE);
    if (replace && CHURAWEL_NUMBER(answer) == CHURAWEL_REFUSED_EXISTS)
        make_anew(disk, name, about);
    else
        accept_answer(disk, CHURAWEL_FN_MAKE, answer, about);
}

void put(const struct options *options, char **operands, int count)
{
    char shown[SHOWN_MOST];
    struct name name = new_name(operands[1], count > 2 ? operands[2] : NULL);
    shown_file(name.user, name.bytes, shown);
    // What is put is read before the image is locked, since standard input may take its time. A byte more than a file can have
    // is read too, so that the call itself refuses a longer one.
    struct bytes bytes = read_input(operands[1], FILE_MOST + 1);
    struct disk *disk = open_disk(options, operands[0], true);
    make_file(disk, &name, options->replace, shown);
    write_records(disk, bytes, options->text ? END_OF_TEXT : 0, shown);
    store_disk(disk);
    printf("%s: records written: %zu, free blocks: %u\n", shown, (bytes.count + RECORD_BYTES - 1) / RECORD_BYTES,
           disk->free_blocks);
}

// Log-in itself says whether there is such a geometry: 33, as no byte is lent, where there is.
static void allow_geometry(const struct geometry *geometry, const char *about)
{
    uint8_t none = 0, drive[CHURAWEL_WIDE_DRIVE_BYTES];
    uint32_t number = CHURAWEL_NUMBER(log_in(geometry, (struct bytes){&none, 0}, drive));
    if (number != CHURAWEL_REFUSED_VOLUME_LENGTH)
        refuse("%s: %s (%u): %s; %s", about, words_of(number), number, shown_geometry(geometry), LAWFUL);
}

void new_image(const struct options *options, char **operands, int count)
{
    (void)count;
    uint8_t drive[CHURAWEL_WIDE_DRIVE_BYTES];
    struct geometry geometry = geometry_of_new(options);
    allow_geometry(&geometry, operands[0]);
    size_t volume_bytes = bytes_of(&geometry);
    struct bytes volume = {memset(room_for(volume_bytes), EMPTY, volume_bytes), volume_bytes};
    uint32_t answer = log_in(&geometry, volume, drive);
    if (CHURAWEL_NUMBER(answer) != 0)
        refuse_by(operands[0], CHURAWEL_NUMBER(answer), "");
    create_file(operands[0], volume);
    printf("%s: an empty disk, free blocks: %u\n", operands[0], CHURAWEL_VALUE(answer));
}
