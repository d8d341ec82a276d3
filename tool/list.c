// list and check: what is on a disk, and is it sound.
#include "tool.h"

#include <stdio.h>
#include <stdlib.h>

static bool is_wanted(const struct listed *file, int user, const struct name *pattern)
{
    struct name capitals = in_capitals(*pattern);
    return (user == ANY_USER || file->user == user) && (matches(pattern, file->name) || matches(&capitals, file->name));
}

void list(const struct options *options, char **operands, int count)
{
    struct name pattern = pattern_of(count > 1 ? operands[1] : "*.*");
    int user = pattern.user_typed ? pattern.user : options->user;
    if (pattern.user_typed && options->user != ANY_USER && options->user != pattern.user)
        wrong_use("-u %d and '%s' name two users", options->user, operands[1]);
    struct disk *disk = open_disk(options, operands[0], false);
    struct listed file;
    char shown[SHOWN_MOST];
    uint32_t slot = 0;
    puts("USER NAME         RECORDS   BYTES BLOCKS ATTRIBUTES");
    while (next_file(disk, &slot, &file)) {
        if (!is_wanted(&file, user, &pattern))
            continue;
        printf("%4u %-12s %7u %7u %6u%s%s\n", file.user, shown_name(file.name, shown), file.records,
               file.records * RECORD_BYTES, file.blocks, file.read_only ? " read-only" : "", file.system ? " system" : "");
    }
    printf("free blocks: %u\n", disk->free_blocks);
}

void check(const struct options *options, char **operands, int count)
{
    (void)count;
    struct disk *disk = read_disk(options, operands[0], false);
    const char *why = inspect(disk);
    if (why == NULL) {
        printf("%s: the disk is sound, free blocks: %u\n", operands[0], disk->free_blocks);
        return;
    }
    printf("%s: %s\n", operands[0], why);
    fflush(stdout);
    exit(REFUSED);
}
