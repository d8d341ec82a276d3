// rename, erase and attributes: functions 23, 19 and 30.
#include "tool.h"

#include <stdio.h>
#include <stdlib.h>
#include <string.h>

// Is it the new name that this number refuses, and not the file?
static bool is_of_new_name(uint32_t number, const struct name *old)
{
    return number == CHURAWEL_REFUSED_UNTYPEABLE || number == CHURAWEL_REFUSED_EXISTS || (number == CHURAWEL_REFUSED_NAME && !is_pattern(old));
}

void rename_file(const struct options *options, char **operands, int count)
{
    (void)count;
    char shown[SHOWN_MOST], shown_new[SHOWN_MOST];
    struct name old = name_of(operands[1]), new = in_capitals(name_of(operands[2]));
    if (new.user_typed && new.user != old.user)
        wrong_use("rename keeps a file's user, and '%s' names another than '%s'", operands[2], operands[1]);
    struct disk *disk = open_disk(options, operands[0], true);
    aim_at(disk, old);
    set_new_name(disk, &new);
    uint32_t answer = call(disk, CHURAWEL_FN_RENAME);
    accept_answer(disk, CHURAWEL_FN_RENAME, answer, is_of_new_name(CHURAWEL_NUMBER(answer), &old) ? operands[2] : operands[1]);
    store_disk(disk);
    printf("%s: renamed to %s\n", shown_file(old.user, disk->aimed.bytes, shown), shown_file(old.user, new.bytes, shown_new));
}

// All files that are on the disk now.
struct files {
    struct listed *at;
    size_t count;
};

static struct files files_on(const struct disk *disk)
{
    struct files files = {room_for(SLOTS_MOST * sizeof *files.at), 0};
    for (uint32_t slot = 0; files.count < SLOTS_MOST && next_file(disk, &slot, &files.at[files.count]);)
        files.count++;
    return files;
}

static bool is_same_file(const struct listed *one, const struct listed *other)
{
    return one->user == other->user && memcmp(one->name, other->name, NAME_BYTES) == 0;
}

// Those of the files before that are not there after; what stays keeps its order.
static void say_erased(const struct files *before, const struct files *after)
{
    char shown[SHOWN_MOST];
    size_t stayed = 0;
    for (size_t k = 0; k < before->count; k++) {
        const struct listed *file = &before->at[k];
        if (stayed < after->count && is_same_file(file, &after->at[stayed]))
            stayed++;
        else
            printf("%s: erased\n", shown_file(file->user, file->name, shown));
    }
}

void erase(const struct options *options, char **operands, int count)
{
    (void)count;
    struct name pattern = pattern_of(operands[1]);
    struct disk *disk = open_disk(options, operands[0], true);
    struct files before = files_on(disk);
    aim_at(disk, pattern);
    must(disk, CHURAWEL_FN_DELETE, operands[1]);
    struct files after = files_on(disk);
    store_disk(disk);
    say_erased(&before, &after);
    printf("free blocks: %u\n", disk->free_blocks);
}

// +r -r +s -s, also several letters behind one sign.
static void take_signs(const char *word, struct listed *file)
{
    if ((word[0] != '+' && word[0] != '-') || word[1] == '\0' || word[1 + strspn(word + 1, "rs")] != '\0')
        wrong_use("attributes are +r or -r, read-only, and +s or -s, system, and not '%s'", word);
    if (strchr(word, 'r') != NULL)
        file->read_only = word[0] == '+';
    if (strchr(word, 's') != NULL)
        file->system = word[0] == '+';
}

static void take_all_signs(char **operands, int count, struct listed *file)
{
    for (int k = 2; k < count; k++)
        take_signs(operands[k], file);
}

void attributes(const struct options *options, char **operands, int count)
{
    struct listed file = {0};
    char shown[SHOWN_MOST];
    struct name name = name_of(operands[1]);
    take_all_signs(operands, count, &file);
    struct disk *disk = open_disk(options, operands[0], true);
    aim_at(disk, name);
    find_file(disk, &disk->aimed, &file);
    take_all_signs(operands, count, &file);
    set_attributes(disk, &file);
    must(disk, CHURAWEL_FN_ATTRIBUTES, operands[1]);
    store_disk(disk);
    printf("%s: %s, %s\n", shown_file(name.user, disk->aimed.bytes, shown), file.read_only ? "read-only" : "not read-only", file.system ? "system" : "not system");
}
