// get and type: a file's records, to a file of this machine or to standard output.
#include "tool.h"

#include <stdio.h>
#include <stdlib.h>
#include <string.h>
#include <unistd.h>

// One record goes to the buffer, or zeros for a gap where that is wanted.
static void read_record(struct disk *disk, uint32_t record, bool zero_gaps, const char *about)
{
    set_record(disk, record);
    uint32_t number = CHURAWEL_NUMBER(call(disk, CHURAWEL_FN_READ_RANDOM));
    bool gap = number == CHURAWEL_REFUSED_ABSENT || number == CHURAWEL_REFUSED_NO_GROUP;
    if (gap && zero_gaps)
        memset(disk->buffer, 0, RECORD_BYTES);
    else if (gap)
        refuse("%s: record %u: %s (%u); --gaps zero takes zeros for it", about, record, words_of(number), number);
    else if (number != 0)
        refuse_by(about, number, "");
}

struct bytes file_bytes(struct disk *disk, const char *about, bool text, bool zero_gaps)
{
    must(disk, CHURAWEL_FN_SIZE, about);
    uint32_t records = record_set(disk);
    struct bytes bytes = {room_for((size_t)records * RECORD_BYTES), 0};
    for (uint32_t record = 0; record < records; record++) {
        read_record(disk, record, zero_gaps, about);
        const uint8_t *end = text ? memchr(disk->buffer, END_OF_TEXT, RECORD_BYTES) : NULL;
        size_t count = end == NULL ? RECORD_BYTES : (size_t)(end - disk->buffer);
        memcpy(bytes.at + bytes.count, disk->buffer, count);
        bytes.count += count;
        if (end != NULL)
            break;
    }
    return bytes;
}

static bool are_gaps_zero(const struct options *options)
{
    if (options->gaps != NULL && strcmp(options->gaps, "zero") != 0)
        wrong_use("--gaps takes the word zero, and not '%s'", options->gaps);
    return options->gaps != NULL;
}

// The file's own name, where it can be that of a file in this folder.
static const char *own_name(const struct name *name, char *shown)
{
    shown_name(name->bytes, shown);
    if (strchr(shown, '/') != NULL || shown[0] == '.' || shown[0] == '-')
        wrong_use("%s is no good name on this machine: say behind it which file to write", shown);
    return shown;
}

void get(const struct options *options, char **operands, int count)
{
    char shown[SHOWN_MOST];
    bool zero_gaps = are_gaps_zero(options);
    struct name name = name_of(operands[1]);
    struct disk *disk = open_disk(options, operands[0], false);
    aim_at(disk, name);
    struct bytes bytes = file_bytes(disk, operands[1], options->text, zero_gaps);
    const char *path = count > 2 ? operands[2] : own_name(&disk->aimed, shown);
    if (strcmp(path, "-") == 0)
        write_all(STDOUT_FILENO, "standard output", bytes);
    else
        write_result(path, &disk->original.state, "the image", options->replace, bytes);
}

void type(const struct options *options, char **operands, int count)
{
    (void)count;
    bool zero_gaps = are_gaps_zero(options);
    struct name name = name_of(operands[1]);
    struct disk *disk = open_disk(options, operands[0], false);
    aim_at(disk, name);
    write_all(STDOUT_FILENO, "standard output", file_bytes(disk, operands[1], true, zero_gaps));
}
