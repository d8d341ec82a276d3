// who and replace: which manuscript a siglum means, and one siglum replaced by another in a chapter.
#include "tool.h"

#include <stdio.h>
#include <stdlib.h>
#include <string.h>

enum { SIGLUM_BYTES = 2, LINE_BYTES = 32, LIST_MOST = FILE_MOST, CHAPTER_MOST = 65535 };

// 0x and four digits: the siglum's two bytes, the first one first. False for anything else.
static bool is_in_hex(const char *typed, uint16_t *siglum)
{
    size_t digits = strncmp(typed, "0x", 2) == 0 ? strspn(typed + 2, "0123456789ABCDEFabcdef") : 0;
    if (digits != 2 * SIGLUM_BYTES || typed[2 + digits] != '\0')
        return false;
    unsigned long bytes = strtoul(typed + 2, NULL, 16);
    *siglum = (uint16_t)(bytes >> 8 | bytes << 8);
    return true;
}

// Two bytes in hex, or one or two characters; behind a single one stands a blank.
static uint16_t siglum_of(const char *typed)
{
    uint16_t siglum;
    size_t count = strlen(typed);
    if (is_in_hex(typed, &siglum))
        return siglum;
    if (count < 1 || count > SIGLUM_BYTES)
        wrong_use("a siglum is one or two characters, or 0x and four hex digits, and not '%s'", typed);
    for (size_t k = 0; k < count; k++)
        if (typed[k] < ' ' || typed[k] > '~')
            wrong_use("'%s' has a character that can't be typed here: type the siglum's two bytes, as in 0xFF01", typed);
    return (uint16_t)(typed[0] | (count > 1 ? typed[1] : ' ') << 8);
}

static uint16_t chapter_of(const char *typed)
{
    size_t digits = strspn(typed, "0123456789");
    unsigned long chapter = digits > 0 && digits < 6 && typed[digits] == '\0' ? strtoul(typed, NULL, 10) : 0;
    if (chapter == 0 || chapter > CHAPTER_MOST)
        wrong_use("a chapter is a number from 1 to 65535, and not '%s'", typed);
    return (uint16_t)chapter;
}

// The colon that parts IMAGE:FILE: the first behind the name of a file that is there.
static char *parting(char *typed)
{
    struct stat there;
    for (char *colon = strchr(typed, ':'); colon != NULL; colon = strchr(colon + 1, ':')) {
        *colon = '\0';
        bool is_file = stat(typed, &there) == 0 && S_ISREG(there.st_mode);
        *colon = ':';
        if (is_file)
            return colon;
    }
    return NULL;
}

static struct bytes host_list(const char *path)
{
    struct bytes bytes = read_file(path, LIST_MOST + 1);
    if (bytes.count > LIST_MOST)
        refuse("%s has more than %d bytes, and a list has no more", path, LIST_MOST);
    return bytes;
}

// A list is a file of this machine, or IMAGE:FILE one of a disk.
static struct bytes list_bytes(const struct options *options, char *typed)
{
    struct stat there;
    char *colon = stat(typed, &there) == 0 ? NULL : parting(typed);
    if (colon == NULL)
        return host_list(typed);
    *colon = '\0';
    struct disk *disk = open_disk(options, typed, false);
    aim_at(disk, name_of(colon + 1));
    struct bytes bytes = file_bytes(disk, colon + 1, false, false);
    *colon = ':';
    return bytes;
}

// Without the blanks behind it; what can't be shown as it is becomes a full stop.
static void show_name(const uint8_t *name)
{
    int count = CHURAWEL_NAME_BYTES;
    while (count > 0 && (name[count - 1] == ' ' || name[count - 1] == '\0'))
        count--;
    for (int k = 0; k < count; k++)
        putchar(name[k] < ' ' || name[k] > '~' ? '.' : name[k]);
}

// Of two lists, one of them not made of lines, the first such; and how long it is.
static _Noreturn void refuse_list(const struct bytes *lists, char **paths)
{
    char length[32];
    int list = lists[0].count % LINE_BYTES != 0 ? 0 : 1;
    snprintf(length, sizeof length, ": %zu bytes", lists[list].count);
    refuse_by(paths[list], CHURAWEL_DESK_LISTS, length);
}

void who(const struct options *options, char **operands, int count)
{
    uint8_t none = 0;
    uint16_t siglum = siglum_of(operands[0]);
    struct bytes lists[] = {list_bytes(options, operands[1]), {&none, 0}};
    if (count > 2)
        lists[1] = list_bytes(options, operands[2]);
    uint64_t told = churawel_manuscript(siglum, lists[0].at, lists[0].count, lists[1].at, lists[1].count);
    if (CHURAWEL_TOLD(told) == CHURAWEL_DESK_LISTS)
        refuse_list(lists, operands + 1);
    if (CHURAWEL_TOLD(told) != 0)
        refuse_by(operands[0], CHURAWEL_TOLD(told), "");
    uint32_t list = CHURAWEL_LIST(told);
    printf("%s: ", operands[0]);
    show_name(lists[list].at + CHURAWEL_NAME_AT(told));
    printf(" (%s list, %s)\n", list == 0 ? "own" : "house", operands[1 + list]);
}

// ---- why a collation file is refused: looked at once more, its contents and then each record that they list

// A place of the contents: chapter, first record, count and zero, of two bytes each.
enum { PLACES = 16, NUMBER_BYTES = 2, PLACE_BYTES = 4 * NUMBER_BYTES, WHY_MOST = 256 };

struct place {
    uint32_t chapter, first, count, zero;
};

static struct place place_at(const uint8_t *contents, int k)
{
    const uint8_t *at = contents + PLACE_BYTES * k;
    return (struct place){number_at(at, NUMBER_BYTES), number_at(at + NUMBER_BYTES, NUMBER_BYTES),
                          number_at(at + 2 * NUMBER_BYTES, NUMBER_BYTES), number_at(at + 3 * NUMBER_BYTES, NUMBER_BYTES)};
}

// The place of a chapter, of so many; as many where it has none.
static int place_of(const uint8_t *contents, int count, uint32_t chapter)
{
    int k = 0;
    while (k < count && place_at(contents, k).chapter != chapter)
        k++;
    return k;
}

// Is place k within the rules, where the places below it list so many records?
static bool is_in_order(const uint8_t *contents, int k, uint32_t below)
{
    struct place place = place_at(contents, k);
    if (place.chapter == 0)
        return place.first == 0 && place.count == 0 && place.zero == 0;
    return place_of(contents, k, 0) == k && place_of(contents, k, place.chapter) == k && place.first == below + 1 &&
           place.count > 0 && place.zero == 0;
}

// Are the contents in order? If so, how many records they list.
static bool are_in_order(const uint8_t *contents, uint32_t *listed)
{
    *listed = 0;
    for (int k = 0; k < PLACES; k++) {
        if (!is_in_order(contents, k, *listed))
            return false;
        *listed += place_at(contents, k).count;
    }
    return true;
}

static const char *no_chapter(const uint8_t *contents, uint32_t chapter, char *why)
{
    int used = place_of(contents, PLACES, 0);
    int at = sprintf(why, "there is no chapter %u; it has ", chapter);
    if (used == 0)
        strcpy(why + at, "none");
    for (int k = 0; k < used; k++)
        at += sprintf(why + at, "%s%u", k == 0 ? "" : k == used - 1 ? " and " : ", ", place_at(contents, k).chapter);
    return why;
}

static uint32_t read_at(struct disk *disk, uint32_t record)
{
    set_record(disk, record);
    return CHURAWEL_NUMBER(call(disk, CHURAWEL_FN_READ_RANDOM));
}

// The first of so many records behind the contents that can't be read; where all can, the sentence of the number alone.
static const char *no_record(struct disk *disk, uint32_t listed, char *why)
{
    for (uint32_t record = 1; record <= listed; record++) {
        uint32_t number = read_at(disk, record);
        if (number != 0) {
            snprintf(why, WHY_MOST, "its contents list record %u: %s (%u)", record, words_of(number), number);
            return why;
        }
    }
    return words_of(CHURAWEL_DESK_CONTENTS);
}

// Which of its causes a refusal by 50 has.
static const char *why_contents(struct disk *disk, uint32_t chapter)
{
    static char why[WHY_MOST];
    uint32_t listed;
    if (read_at(disk, 0) != 0)
        return words_of(CHURAWEL_DESK_CONTENTS);
    if (!are_in_order(disk->buffer, &listed))
        return "its contents, record 0, are not in order";
    if (place_of(disk->buffer, PLACES, chapter) == PLACES)
        return no_chapter(disk->buffer, chapter, why);
    return no_record(disk, listed, why);
}

void replace_siglum(const struct options *options, char **operands, int count)
{
    (void)count;
    char shown[SHOWN_MOST];
    struct name name = name_of(operands[1]);
    uint16_t chapter = chapter_of(operands[2]), old = siglum_of(operands[3]), new = siglum_of(operands[4]);
    struct disk *disk = open_disk(options, operands[0], true);
    aim_at(disk, name);
    uint32_t answer = churawel_replace_siglum(disk->drive, churawel_drive_bytes(disk->geometry.blocks), disk->volume.at,
                                              disk->volume.count, disk->fcb, sizeof disk->fcb, chapter, old, new);
    if (CHURAWEL_NUMBER(answer) == CHURAWEL_DESK_CONTENTS)
        refuse("%s: %s (%u)", operands[1], why_contents(disk, chapter), CHURAWEL_DESK_CONTENTS);
    if (CHURAWEL_NUMBER(answer) != 0)
        refuse_aimed(disk, CHURAWEL_NUMBER(answer), operands[1]);
    if (CHURAWEL_VALUE(answer) > 0)
        store_disk(disk);
    printf("%s: records with %s in chapter %u: %u\n", shown_file(name.user, disk->aimed.bytes, shown), operands[3], chapter,
           CHURAWEL_VALUE(answer));
}
