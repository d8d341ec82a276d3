// Why a slot is bad: log-in's answer and the first rule broken, for each rule, worked out by hand.
#include "desk.h"

#include "churawel.h"

#include <string.h>

// What is lent for a fault, with bytes behind it that no call may touch.
static uint8_t fault[CHURAWEL_FAULT_BYTES + GUARD];

// What must stand there. A rule that speaks of no other slot has none.
enum { NO_OTHER = -1 };
struct why {
    uint8_t rule, place;
    uint16_t block;
    int other;
};

// V with DRAFT in slot 0, its blocks 1 and 2 in places 0 and 2, and the same file's next group in slot 1 with block 3.
static void two_entries(void)
{
    static const struct entry entries[] = {
        {.slot = 0, .name = DRAFT, .rc = 128, .map = {1, 0, 2}},
        {.slot = 1, .name = DRAFT, .ex = 1, .rc = 8, .map = {3}},
    };
    fresh(V);
    as_it_stands();
    for (size_t i = 0; i < COUNT(entries); i++)
        want_entry(entries[i]);
    now = want;
}

// The call with these bytes to be expected of the fault; nothing else may change.
static int says(struct geometry g, uint32_t answer, const uint8_t *bytes)
{
    uint8_t expected[sizeof fault];
    as_it_stands();
    memset(fault, 0xAA, sizeof fault);
    memset(expected, 0xAA, sizeof expected);
    memcpy(expected, bytes, CHURAWEL_FAULT_BYTES);
    uint32_t said = churawel_fault(g.block, g.total, g.directory, placing, now.volume, lent.volume, fault, CHURAWEL_FAULT_BYTES);
    return said == answer && memcmp(fault, expected, sizeof fault) == 0 && same_bytes();
}

// One case: the slot is bad, and this is why. User and name are those that stand in the volume.
static void is_bad(const char *what, struct geometry g, size_t slot, struct why why)
{
    uint8_t bytes[CHURAWEL_FAULT_BYTES] = {why.rule, why.place, (uint8_t)why.block, (uint8_t)(why.block >> 8), (uint8_t)slot, (uint8_t)(slot >> 8)};
    memcpy(bytes + 8, now.volume + slot * ENTRY, 12);
    if (why.other != NO_OTHER) {
        bytes[6] = (uint8_t)why.other;
        bytes[7] = (uint8_t)(why.other >> 8);
        memcpy(bytes + 20, now.volume + (size_t)why.other * ENTRY, 12);
    }
    verdict(what, says(g, 36 | (uint32_t)slot << 16, bytes));
}

// One case: byte k of slot i has this value, and all else is as in two_entries.
static void broken(const char *what, size_t slot, size_t k, uint8_t byte, struct why why)
{
    two_entries();
    now.volume[slot * ENTRY + k] = byte;
    is_bad(what, V, slot, why);
}

static void each_rule(void)
{
    broken("a user of 16: rule 1", 0, 0, 16, (struct why){1, 0, 0, NO_OTHER});
    broken("a name that begins with a blank: rule 2", 0, 1, ' ', (struct why){2, 0, 0, NO_OTHER});
    broken("3FH in a name: rule 2", 1, 4, '?', (struct why){2, 0, 0, NO_OTHER});
    broken("a top bit on byte 11: rule 3", 0, 11, 'T' | 0x80, (struct why){3, 0, 0, NO_OTHER});
    broken("ex 32: rule 4", 0, 12, 32, (struct why){4, 0, 0, NO_OTHER});
    broken("s1 1: rule 5", 0, 13, 1, (struct why){5, 0, 0, NO_OTHER});
    broken("s2 16: rule 6", 0, 14, 16, (struct why){6, 0, 0, NO_OTHER});
    broken("rc 129: rule 7", 1, 15, 129, (struct why){7, 0, 0, NO_OTHER});
    broken("block 40 in place 15: rule 8", 0, 31, 40, (struct why){8, 15, 40, NO_OTHER});
    broken("block 2 in places 2 and 3: rule 9", 0, 19, 2, (struct why){9, 3, 2, NO_OTHER});
    broken("block 2 of slot 0 in place 1 of slot 1: rule 10", 1, 17, 2, (struct why){10, 1, 2, 0});
    broken("two entries of one group: rule 11", 1, 12, 0, (struct why){11, 0, 0, 0});
}

// The first rule in the order of the paper, and the lowest slot.
static void several_faults(void)
{
    two_entries();
    now.volume[15] = 129;
    now.volume[12] = 32;
    now.volume[ENTRY] = 16;
    is_bad("ex and rc of slot 0, user of slot 1: rule 4 of slot 0", V, 0, (struct why){4, 0, 0, NO_OTHER});
    two_entries();
    memcpy(now.volume + 2 * ENTRY, now.volume + ENTRY, ENTRY);
    memcpy(now.volume + ENTRY, now.volume + 3 * ENTRY, ENTRY);
    memcpy(now.volume + 9 * ENTRY, now.volume + 2 * ENTRY, ENTRY);
    is_bad("slot 9 has block 3 of slot 2, and its group: rule 10, slot 2", V, 9, (struct why){10, 0, 3, 2});
    now.volume[9 * ENTRY + 16] = 4;
    is_bad("slot 9 has the group of slot 2 alone: rule 11, slot 2", V, 9, (struct why){11, 0, 0, 2});
    now.volume[9 * ENTRY + 9] |= 0x80;
    is_bad("the same with a read-only mark, which is shown", V, 9, (struct why){11, 0, 0, 2});
}

// Another geometry: B 2,048, where extents 0 and 1 are one group, and D 2, where block 1 is the directory's.
static void another_geometry(void)
{
    const struct geometry g = {2048, 8, 2};
    static const struct entry entries[] = {
        {.slot = 40, .user = 7, .name = DRAFT, .rc = 128, .map = {[3] = 7}},
        {.slot = 127, .user = 7, .name = DRAFT, .ex = 2, .rc = 8, .map = {2}},
    };
    fresh(g);
    as_it_stands();
    for (size_t i = 0; i < COUNT(entries); i++)
        want_entry(entries[i]);
    now = want;
    uint8_t *last = now.volume + 127 * ENTRY;
    last[17] = 1;
    is_bad("block 1 below D, in slot 127, the last: rule 8", g, 127, (struct why){8, 1, 1, NO_OTHER});
    last[17] = 7;
    is_bad("block 7 of slot 40 in place 1: rule 10", g, 127, (struct why){10, 1, 7, 40});
    last[17] = 0;
    last[12] = 1;
    is_bad("extent 1 is of the group of extent 0: rule 11", g, 127, (struct why){11, 0, 0, 40});
}

static void without_fault(void)
{
    static const uint8_t none[CHURAWEL_FAULT_BYTES];
    two_entries();
    verdict("a good volume: 0 with 36 free, and 32 zeros", says(V, 36u << 16, none));
    verdict("a geometry outside the rules: 32, and 32 zeros", says((struct geometry){1000, 40, 1}, 32, none));
    verdict("another length of volume: 33, and 32 zeros", says((struct geometry){1024, 41, 1}, 33, none));
    memset(fault, 0xAA, sizeof fault);
    int good = 1;
    for (size_t length = 0; length <= sizeof fault; length++)
        if (length != CHURAWEL_FAULT_BYTES)
            good &= churawel_fault(1000, 40, 1, CHURAWEL_STRAIGHT, now.volume, lent.volume, fault, length) == 35;
    for (size_t i = 0; i < sizeof fault; i++)
        good &= fault[i] == 0xAA;
    verdict("a fault of another length: 35 before 32, and nothing changes", good && same_bytes());
}

void why_bad(void)
{
    each_rule();
    several_faults();
    another_geometry();
    without_fault();
}
