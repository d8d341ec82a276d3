// The paper's examples ("Examples to hold it to"), all of them, starred or not.
#include "desk.h"

#include <string.h>

#define SIGLA "SIGLA   TXT"

// The slots' codes, shown one after another by a search with dr 3FH: 32 slots, then no more.
static void count_slots(void)
{
    int good = 1;
    block_for("NOTHING    ");
    now.fcb[0] = 0x3F;
    for (uint8_t slot = 0; slot < 32; slot++) {
        as_it_stands();
        want_found(2, 0, slot, "NOTHING    ", 0);
        good &= holds(slot == 0 ? 17 : 18, 0, slot % 4);
    }
    as_it_stands();
    good &= holds(18, 0, 255);
    verdict("V has 32 slots: so many hits of a search with dr 3FH, then 255", good);
}

// "Log-in of V: 39 free, 32 slots."
static void log_in_v(void)
{
    logged_in("log-in of V: 39 free", V, 39, NULL, 0);
}

// "Make SIGLA.TXT: code 0. Again: 43. Rename to itself: 43."
static void make_sigla(void)
{
    block_for(SIGLA);
    memset(now.fcb + 13, 0x77, 23);
    EXPECT("make SIGLA.TXT: code 0, slot 0 gets user and name, all else 0; control block 12..31 become 0", 22, 0, 0,
           want_made(0, SIGLA), memset(want.fcb + 12, 0, 20));
    refuses("make SIGLA.TXT again: 43", 22, 43);
    block_to_rename(SIGLA, SIGLA);
    refuses("rename SIGLA.TXT to itself: 43", 23, 43);
}

// "Write 0: block 1, rc 1, bytes at 1,024." "Then write 20: place 2, block 2, bytes at 2,560, rc 21."
static void write_0_and_20(void)
{
    block_for(SIGLA);
    at_record(0);
    fill_buffer(2);
    EXPECT("write 0: block 1, rc 1, bytes at 1,024", 34, 0, 0,
           want_written(1024, ENTRY_WITH(.name = SIGLA, .rc = 1, .map = {1}), 0), want_held(1));
    at_record(20);
    fill_buffer(3);
    EXPECT("write 20: place 2, block 2, bytes at 2,560, rc 21", 34, 0, 0,
           want_written(2560, ENTRY_WITH(.name = SIGLA, .rc = 21, .map = {1, 0, 2}), 20), want_held(2));
}

// "Read 8: 1. Read 21: 1. Read 16: present, old bytes of block 2."
static void read_8_21_16(void)
{
    at_record(8);
    refuses("read 8: 1", 33, 1);
    at_record(21);
    refuses("read 21: 1", 33, 1);
    at_record(16);
    EXPECT("read 16: present, old bytes of block 2", 33, 0, 0,
           want_read(2048, ENTRY_WITH(.rc = 21, .map = {1, 0, 2}), 16));
    uint8_t old[RECORD];
    for (size_t i = 0; i < RECORD; i++)
        old[i] = (uint8_t)((2048 + i) % 251 + 2);
    verdict("read 16: the buffer has the bytes that stood in block 2 before the writes", memcmp(now.buffer, old, RECORD) == 0);
}

// "Read 128: 4. Write 128: slot 1, ex 1, rc 1, block 3. Size 129."
static void extent_1(void)
{
    at_record(128);
    refuses("read 128: 4", 33, 4);
    fill_buffer(4);
    EXPECT("write 128: slot 1, ex 1, rc 1, block 3", 34, 0, 0,
           want_written(3072, ENTRY_WITH(.slot = 1, .name = SIGLA, .ex = 1, .rc = 1, .map = {3}), 0), want_held(3));
    at_record(0x555555);
    EXPECT("size 129", 35, 0, 0, want_random(129, 0, 0));
}

// What the lister's example counts: "FREE 36".
static void log_in_again(void)
{
    as_it_stands();
    log_in("log-in after the writes 0, 20, 128: 36 free, the same held blocks", V, 0, 36);
    changes_nothing("log-in by function 13 does the same", 13, 0, 36u << 16);
    changes_nothing("log-in by function 37 does the same", 37, 0, 36u << 16);
}

// "Write 65,535 in a new file: ex 31, s2 15, rc 128, place 15; size bytes 0, 0, 1."
static void last_record(void)
{
    log_in_v();
    block_for("LAST       ");
    EXPECT("make a new file: code 0", 22, 0, 0, want_made(0, "LAST       "));
    at_record(65535);
    fill_buffer(5);
    const struct entry last = {1, 0, "LAST       ", 31, 15, 128, {[15] = 1}};
    EXPECT("write 65,535 in a new file: ex 31, s2 15, rc 128, place 15", 34, 0, 0,
           want_written(1024 + 7 * RECORD, last, 127), want_held(1));
    EXPECT("its size: bytes 0, 0, 1", 35, 0, 0, want_random(0, 0, 1));
}

// "B 2,048, new file, write 200: ex 1, rc 73, place 12. Read 5: 1."
static void two_extents_an_entry(void)
{
    logged_in("B 2,048: log-in, 39 free", (struct geometry){2048, 40, 1}, 39, NULL, 0);
    block_for("WIDE       ");
    EXPECT("B 2,048: make a new file", 22, 0, 0, want_made(0, "WIDE       "));
    at_record(200);
    fill_buffer(6);
    const struct entry wide = {0, 0, "WIDE       ", 1, 0, 73, {[12] = 1}};
    EXPECT("B 2,048: write 200: ex 1, rc 73, place 12", 34, 0, 0, want_written(2048 + 8 * RECORD, wide, 72), want_held(1));
    at_record(5);
    refuses("B 2,048: read 5: 1", 33, 1);
}

// Makes files until `slots` slots are taken, from slot `from` on; whether each got its code.
static int take_slots(unsigned from, unsigned slots)
{
    int good = 1;
    for (unsigned slot = from; slot < slots; slot++) {
        char name[] = "FULL00     ";
        name[4] = (char)('0' + slot / 10);
        name[5] = (char)('0' + slot % 10);
        block_for(name);
        as_it_stands();
        want_made(slot, name);
        good &= holds(22, 0, slot % 4);
    }
    return good;
}

// "No empty slot and no free block, new group: 5."
static void nothing_left(void)
{
    log_in_v();
    int good = take_slots(0, 1);
    // 39 blocks: all places of groups 0 and 1, and seven of group 2.
    for (uint8_t k = 0; k < 39; k++) {
        uint8_t group = k / 16, place = k % 16;
        struct entry e = {.slot = group, .name = "FULL00     ", .ex = group, .rc = place * 8 + 1};
        for (uint8_t p = 0; p <= place; p++)
            e.map[p] = group * 16 + p + 1;
        block_for(e.name);
        at_record(k * 8u);
        as_it_stands();
        want_written((k + 1) * 1024, e, place * 8);
        want_held(k + 1u);
        good &= holds(34, 0, 0);
    }
    verdict("a file takes all 39 blocks, one write each", good);
    verdict("29 more files take the other slots", take_slots(3, 32));
    block_for("ONEMORE    ");
    refuses("no empty slot: make answers 255", 22, 255);
    block_for("FULL00     ");
    at_record(384);
    refuses("no empty slot and no free block, new group: 5", 34, 5);
    refuses("the same by function 40: 5", 40, 5);
    at_record(256 + 7 * 8);
    refuses("no free block, but the group has its entry: 2", 34, 2);
}

// "T 2, D 1: the second block asked for: 2."
static void second_block(void)
{
    logged_in("T 2, D 1: log-in, 1 free", (struct geometry){1024, 2, 1}, 1, NULL, 0);
    verdict("T 2, D 1: make", take_slots(0, 1));
    EXPECT("T 2, D 1: write 0", 34, 0, 0, want_written(1024, ENTRY_WITH(.name = "FULL00     ", .rc = 1, .map = {1}), 0),
           want_held(1));
    at_record(8);
    refuses("T 2, D 1: the second block asked for: 2", 34, 2);
}

// "cr 128 is taken, 129 is 40."
static void positions(void)
{
    const struct entry second = {1, 0, "FULL00     ", 1, 0, 1, {1}};
    log_in_v();
    verdict("make a file for positions", take_slots(0, 1));
    now.fcb[32] = 128;
    EXPECT("sequential write with cr 128 is taken: record 128, ex 1, cr 1", 21, 0, 0, want_written(1024, second, 1),
           want_held(1));
    now.fcb[12] = 0;
    now.fcb[32] = 128;
    EXPECT("sequential read with cr 128 is taken", 20, 0, 0, want_read(1024, second, 1));
    now.fcb[12] = 0;
    now.fcb[32] = 129;
    refuses("sequential write with cr 129: 40", 21, 40);
    refuses("sequential read with cr 129: 40", 20, 40);
    refuses("function 36 with cr 129: 40", 36, 40);
}

// "Pattern delete with one read-only match: 38, nothing gone."
static void pattern_delete(void)
{
    log_in_v();
    verdict("make four files", take_slots(0, 4));
    block_for("FULL02     ");
    now.fcb[9] |= 0x80;
    EXPECT("one of them becomes read-only", 30, 0, 0, want.volume[2 * ENTRY + 9] |= 0x80);
    block_for("FULL0?     ");
    refuses("pattern delete with one read-only match: 38, nothing gone", 19, 38);
    block_for("FULL02     ");
    EXPECT("it becomes writable again", 30, 0, 0, want.volume[2 * ENTRY + 9] &= 0x7F);
    block_for("FULL0?     ");
    as_it_stands();
    for (size_t slot = 0; slot < 4; slot++)
        want.volume[slot * ENTRY] = 0xE5;
    answers("then the pattern deletes all four", 19, 0, 0);
}

void paper_examples(void)
{
    log_in_v();
    make_sigla();
    write_0_and_20();
    read_8_21_16();
    extent_1();
    log_in_again();
    last_record();
    two_extents_an_entry();
    nothing_left();
    second_block();
    positions();
    pattern_delete();
    log_in_v();
    count_slots();
}
