// A file's line: each file of a volume by its lowest slot, in the lister's order, worked out by hand.
#include "desk.h"

#include "churawel.h"

#include <string.h>

// What is lent for a line, with bytes behind it that no call may touch.
static uint8_t line[CHURAWEL_FILE_BYTES + GUARD];

// What must stand there.
struct told {
    uint8_t user;
    const char *name;
    uint8_t read_only, system;
    uint8_t records[4], blocks[2];
};

// One case: the answer, the line, and nothing else changed; with no line to tell of, the bytes must be left.
static void shows(const char *what, uint32_t from, uint32_t answer, const struct told *told)
{
    uint8_t expected[sizeof line];
    as_it_stands();
    memset(line, 0xAA, sizeof line);
    memset(expected, 0xAA, sizeof expected);
    if (told != NULL) {
        memset(expected, 0, CHURAWEL_FILE_BYTES);
        expected[0] = told->user;
        memcpy(expected + 1, told->name, 11);
        expected[12] = told->read_only;
        expected[13] = told->system;
        memcpy(expected + 14, told->records, 4);
        memcpy(expected + 18, told->blocks, 2);
    }
    uint32_t said = churawel_file(now.drive, lent.drive, now.volume, lent.volume, from, line, CHURAWEL_FILE_BYTES);
    verdict(what, said == answer && memcmp(line, expected, sizeof line) == 0 && same_bytes());
}

// DRAFT of user 0 in slots 0 and 3, a system file by the second; DRAFT of user 3; LAST of user 15, read-only, which ends at
// the last record that there can be.
static void three_files(void)
{
    static const struct entry entries[] = {
        {.slot = 0, .name = DRAFT, .rc = 128, .map = {1, 2}},
        {.slot = 1, .user = 3, .name = DRAFT, .rc = 7, .map = {0, 3}},
        {.slot = 3, .name = "DRAFT   T\xD8T", .ex = 1, .rc = 8, .map = {4}},
        {.slot = 31, .user = 15, .name = "LAST    \xD4XT", .ex = 31, .s2 = 15, .rc = 128, .map = {5}},
    };
    logged_in("log-in of three files in four entries: 34 free", V, 34, entries, COUNT(entries));
}

static void each_file(void)
{
    const struct told first = {0, DRAFT, 0, 1, {136}, {3}};
    const struct told second = {3, DRAFT, 0, 0, {7}, {1}};
    const struct told third = {15, "LAST    TXT", 1, 0, {0, 0, 1}, {1}};
    three_files();
    shows("from slot 0: slot 0, 136 records, 3 blocks, a system file by one of two entries", 0, 0, &first);
    shows("from slot 1: slot 1, the same name of user 3", 1, 1u << 16, &second);
    shows("from slot 2: slot 31, since slot 3 is not the lowest of its file", 2, 31u << 16, &third);
    shows("from slot 31: slot 31, read-only, 65,536 records", 31, 31u << 16, &third);
    shows("from slot 32: 255", 32, 255, NULL);
    shows("from the largest number: 255", 0xFFFFFFFF, 255, NULL);
    now.volume[31 * ENTRY] = 0xE5;
    shows("from slot 2, slot 31 being empty: 255", 2, 255, NULL);
}

// Blocks of 2,048 and 4,096 bytes: an entry covers two extents, or four. DRAFT ends in extent 3 of its first group or of its
// second; FINAL has its blocks in the last places.
static void larger_blocks(void)
{
    const struct told draft = {0, DRAFT, 0, 0, {149, 1}, {3}};
    const struct told final = {1, FINAL, 0, 0, {128, 0}, {2}};
    static const struct entry of_2048[] = {
        {.slot = 2, .name = DRAFT, .ex = 1, .rc = 128, .map = {1, 2}},
        {.slot = 5, .name = DRAFT, .ex = 3, .rc = 21, .map = {0, 3}},
        {.slot = 63, .user = 1, .name = FINAL, .rc = 128, .map = {[14] = 4, [15] = 5}},
    };
    logged_in("log-in of blocks of 2,048: 14 free", (struct geometry){2048, 20, 1}, 14, of_2048, COUNT(of_2048));
    shows("DRAFT of two groups: 405 records, 3 blocks", 0, 2u << 16, &draft);
    shows("FINAL in slot 63, the last", 3, 63u << 16, &final);
    shows("from slot 64: 255", 64, 255, NULL);
    static const struct entry of_4096[] = {
        {.slot = 4, .name = DRAFT, .ex = 3, .rc = 21, .map = {2, 3, 0, 4}},
        {.slot = 127, .user = 1, .name = FINAL, .rc = 128, .map = {[14] = 5, [15] = 6}},
    };
    logged_in("log-in of blocks of 4,096: 5 free", (struct geometry){4096, 11, 1}, 5, of_4096, COUNT(of_4096));
    shows("DRAFT of one group: 405 records, 3 blocks", 0, 4u << 16, &draft);
    shows("FINAL in slot 127, the last", 5, 127u << 16, &final);
}

// A volume that was altered after log-in: the calls show what stands there.
static void altered(void)
{
    struct told strange = {200, "A/B     TXT", 1, 1, {0x00, 0x70, 0x10}, {16}};
    three_files();
    uint8_t *entry = now.volume + 7 * ENTRY;
    memset(entry, 255, ENTRY);
    entry[0] = 200;
    memcpy(entry + 1, "A/B     \xD4\xD8T", 11);
    shows("a wild entry: its records and blocks by its bytes", 2, 7u << 16, &strange);
    entry[1] |= 0x80;
    entry[9] = 'T';
    strange.read_only = 0;
    shows("a top bit in the name is taken off, and one mark is gone", 7, 7u << 16, &strange);
}

static void refused(void)
{
    three_files();
    as_it_stands();
    memset(line, 0xAA, sizeof line);
    int good = churawel_file(now.drive, 64, now.volume, lent.volume - 1, 0, line, 23) == 33;
    good &= churawel_file(now.drive, 64, now.volume, lent.volume, 0, line, 23) == 35;
    good &= churawel_file(now.drive, 64, now.volume, lent.volume, 32, line, 25) == 35;
    good &= churawel_file(now.drive, 63, now.volume, lent.volume - 1, 0, line, 23) == 32;
    for (size_t i = 0; i < sizeof line; i++)
        good &= line[i] == 0xAA;
    verdict("32 before 33 before 35 before 255, and nothing changes", good && same_bytes());
    memset(now.drive, 0, 64);
    shows("a closed drive: 32", 0, 32, NULL);
}

void each_line(void)
{
    each_file();
    larger_blocks();
    altered();
    refused();
}
