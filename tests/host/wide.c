// Request (xi): volumes of more than 256 blocks. Numbers of two bytes, eight places, B/2,048 extents, and a drive of 544 bytes,
// worked out by hand.
#include "churawel.h"
#include "desk.h"

#include <stdio.h>
#include <string.h>

// One extent an entry, 16 records a block, 128 slots; and two extents, 32 records, 128 slots.
#define HARD ((struct geometry){2048, 300, 2})
#define LARGE_BLOCKS ((struct geometry){4096, 257, 1})

enum { B = 2048, FIRST = 2, HELD_AT = 32 };

// DRAFT of user 0 in slots 0 and 1, groups 0 and 1, FINAL of user 0 in slot 5. Blocks 2, 3, 256, 257, 258 and 299 are held.
static const struct entry draft = {.name = DRAFT, .rc = 128, .map = {BLOCK(2), BLOCK(256), [14] = BLOCK(299)}};
static const struct entry second = {.slot = 1, .name = DRAFT, .ex = 1, .rc = 20, .map = {BLOCK(257), BLOCK(3)}};
static const struct entry final = {.slot = 5, .name = FINAL, .rc = 8, .map = {BLOCK(258)}};

static void wide_files(void)
{
    const struct entry files[] = {draft, second, final};
    logged_in("log-in of 300 blocks with two files: 292 free", HARD, 292, files, COUNT(files));
}

// Is the volume of the desk good with this geometry?
static int accepted(struct geometry g)
{
    uint8_t drive[CHURAWEL_WIDE_DRIVE_BYTES];
    uint32_t answer =
        churawel_log_in(g.block, g.total, g.directory, CHURAWEL_STRAIGHT, now.volume, lent.volume, drive, churawel_drive_bytes(g.total));
    return CHURAWEL_NUMBER(answer) == 0;
}

static void limits(void)
{
    logged_in("log-in of 257 blocks of 2,048: 256 free", (struct geometry){2048, 257, 1}, 256, NULL, 0);
    logged_in("log-in of 257 blocks of 4,096 with 16 of directory: 241 free", (struct geometry){4096, 257, 16}, 241, NULL, 0);
    logged_in("log-in of 256 blocks of 4,096: 255 free, and a drive of 64 bytes", (struct geometry){4096, 256, 1}, 255, NULL, 0);
    static const struct geometry outside[] = {{1024, 257, 1},  {1024, 4096, 1}, {2048, 4097, 1},  {4096, 2049, 1},  {4096, 4096, 1},
                                              {8192, 257, 1},  {2048, 257, 0},  {2048, 257, 17},  {2048, 65535, 1}, {2048, 65576, 1},
                                              {67584, 257, 1}, {2048, 257, 65537}, {2048, UINT32_MAX, 1}};
    for (size_t i = 0; i < COUNT(outside); i++) {
        char what[120];
        struct geometry g = outside[i];
        wide_files();
        snprintf(what, sizeof what, "log-in with B %u, T %u, D %u: 32, and 544 zeros", g.block, g.total, g.directory);
        log_in_refused(what, g, 32, 0);
        wide_files();
        lent.drive = CHURAWEL_DRIVE_BYTES;
        as_it_stands();
        log_in("and with a drive of 64 bytes: 32, nothing changed", g, 32, 0);
    }
    wide_files();
    lent.volume--;
    log_in_refused("log-in with a volume one byte short: 33, and 544 zeros", HARD, 33, 0);
}

static void reading(void)
{
    wide_files();
    block_for(DRAFT);
    at_record(16);
    EXPECT("read 16: place 1, block 256, whose low byte is 0", 33, 0, 0, want_read(256 * B, draft, 16));
    at_record(127);
    EXPECT("read 127: place 7, the last, block 299", 33, 0, 0, want_read(299 * B + 15 * RECORD, draft, 127));
    at_record(32);
    refuses("read 32: place 2 is zero: 1", 33, 1);
    at_record(128);
    EXPECT("read 128: another entry, block 257", 33, 0, 0, want_read(257 * B, second, 0));
    at_record(148);
    refuses("read 148, beyond the count: 1", 33, 1);
    at_record(256);
    refuses("read 256, in a missing group: 4", 33, 4);
    block_for(DRAFT);
    now.fcb[12] = 1;
    EXPECT("open with ex 1: code 1, and the sixteen raw bytes of its map", 15, 0, 1, want_opened(second));
    changes_nothing("close of (0, 1): code 1", 16, 0, 1);
    now.fcb[12] = 2;
    refuses("close of (0, 2): 255", 16, 255);
    block_for(DRAFT);
    EXPECT("size: 148 records", 35, 0, 0, want_random(148, 0, 0));
    block_for("?????   TXT");
    EXPECT("search finds slot 0", 17, 0, 0, want_found(1, 0, 0, "?????   TXT", 0));
    EXPECT("and then slot 5", 18, 0, 1, want_found(1, 0, 5, "?????   TXT", 0));
}

static void writing(void)
{
    wide_files();
    block_for(DRAFT);
    fill_buffer(3);
    at_record(32);
    struct entry grown = draft;
    memcpy(grown.map + 4, (const uint8_t[]){BLOCK(259)}, 2);
    EXPECT("write 32: the lowest free block above 256 is 259", 34, 0, 0, want_written(259 * B, grown, 32), want_held(259));
    at_record(160);
    EXPECT("write 160, in the second entry: the lowest free block above 3 is 4", 34, 0, 0,
           want_written(4 * B, ENTRY_WITH(.slot = 1, .name = DRAFT, .ex = 1, .rc = 33, .map = {BLOCK(257), BLOCK(3), BLOCK(4)}), 32),
           want_held(4));
    at_record(256 + 40);
    EXPECT("40 of record 296: slot 2, block 5, which is filled with zeros first", 40, 0, 0, memset(want.volume + 5 * B, 0, B),
           want_written(5 * B + 8 * RECORD, ENTRY_WITH(.slot = 2, .name = DRAFT, .ex = 2, .rc = 41, .map = {[4] = BLOCK(5)}), 40),
           want_held(5));
    block_for(DRAFT);
    EXPECT("size: 297 records", 35, 0, 0, want_random(297 % 256, 1, 0));
    // Every data block but 255 to 258 is held, of the state's own.
    memset(now.drive + HELD_AT, 0xFF, 512);
    now.drive[HELD_AT + 31] = 0x7F;
    now.drive[HELD_AT + 32] = 0xF8;
    now.fcb[12] = 2;
    now.fcb[32] = 0;
    EXPECT("a first place takes the lowest free block, 255", 21, 0, 0,
           want_written(255 * B, ENTRY_WITH(.slot = 2, .name = DRAFT, .ex = 2, .rc = 41, .map = {BLOCK(255), [4] = BLOCK(5)}), 1),
           want_held(255));
    now.fcb[32] = 16;
    EXPECT("and the next place block 256: bytes 0 and 1", 21, 0, 0,
           want_written(256 * B, ENTRY_WITH(.slot = 2, .name = DRAFT, .ex = 2, .rc = 41, .map = {BLOCK(255), BLOCK(256), BLOCK(5)}), 17),
           want_held(256));
    memset(now.drive + HELD_AT, 0xFF, 512);
    now.fcb[32] = 48;
    refuses("with every block held: 2", 21, 2);
}

static void names(void)
{
    wide_files();
    block_to_rename(DRAFT, "OTHER   TXT");
    EXPECT("rename of two entries", 23, 0, 0, memcpy(want.volume + 1, "OTHER   TXT", 11),
           memcpy(want.volume + ENTRY + 1, "OTHER   TXT", 11));
    block_for("OTHER   TXT");
    now.fcb[10] |= 0x80;
    EXPECT("attributes of two entries", 30, 0, 0, want.volume[10] |= 0x80, want.volume[ENTRY + 10] |= 0x80);
    block_for("OTHER   TXT");
    // 2, 3 and 299 are in other bytes than 256 and 257; 258 stays.
    EXPECT("delete gives back 2, 3, 256, 257 and 299", 19, 0, 0, want.volume[0] = 0xE5, want.volume[ENTRY] = 0xE5,
           want.drive[HELD_AT] = 0, want.drive[HELD_AT + 32] = 4, want.drive[HELD_AT + 299 / 8] = 0);
    block_for("NEW        ");
    EXPECT("make takes slot 0", 22, 0, 0, want_made(0, "NEW        "));
    EXPECT("13 logs in anew: 297 free, and the drive as it is", 13, 0, 297u << 16, (void)0);
    now.volume[5 * ENTRY + 13] = 1;
    EXPECT("37 of a volume with a bad slot: 36, and 544 zeros", 37, 0, 36 | 5u << 16, want_closed());
}

// Two extents an entry where B is 4,096.
static void two_extents(void)
{
    logged_in("log-in of 257 blocks of 4,096: 256 free", LARGE_BLOCKS, 256, NULL, 0);
    block_for(DRAFT);
    EXPECT("make: code 0", 22, 0, 0, want_made(0, DRAFT));
    at_record(200);
    EXPECT("write 200: ex 1, rc 73, place 6", 34, 0, 0,
           want_written(4096 + 8 * RECORD, ENTRY_WITH(.name = DRAFT, .ex = 1, .rc = 73, .map = {[12] = BLOCK(1)}), 72), want_held(1));
    at_record(5);
    refuses("read 5: 1", 33, 1);
    at_record(255);
    EXPECT("write 255: place 7, the eighth", 34, 0, 0,
           want_written(2 * 4096 + 31 * RECORD, ENTRY_WITH(.name = DRAFT, .ex = 1, .rc = 128, .map = {[12] = BLOCK(1), BLOCK(2)}), 127),
           want_held(2));
    at_record(256);
    EXPECT("write 256: a ninth place is the next entry's first", 34, 0, 0,
           want_written(3 * 4096, ENTRY_WITH(.slot = 1, .name = DRAFT, .ex = 2, .rc = 1, .map = {BLOCK(3)}), 0), want_held(3));
    at_record(65535);
    EXPECT("write 65,535: ex 31, s2 15, rc 128, place 7", 34, 0, 0,
           want_written(4 * 4096 + 31 * RECORD, ENTRY_WITH(.slot = 2, .name = DRAFT, .ex = 31, .s2 = 15, .rc = 128, .map = {[14] = BLOCK(4)}), 127),
           want_held(4));
    // Four records over the border of the entries.
    block_for(DRAFT);
    now.fcb[12] = 1;
    now.fcb[32] = 126;
    lent.buffer = 4 * RECORD;
    EXPECT("221 of four records from 254 on", 221, 4, 4u << 16, memcpy(want.volume + 2 * 4096 + 30 * RECORD, now.buffer, 2 * RECORD),
           memcpy(want.volume + 3 * 4096, now.buffer + 2 * RECORD, 2 * RECORD),
           want_entry(ENTRY_WITH(.slot = 1, .name = DRAFT, .ex = 2, .rc = 2, .map = {BLOCK(3)})),
           want_set_to(ENTRY_WITH(.ex = 2, .rc = 2, .map = {BLOCK(3)}), 2));
}

// A number outside in an altered volume: the low byte alone would be a data block's.
static void outside(void)
{
    static const unsigned numbers[] = {1, 300, 512 + 2, 4096 + 9, 65535};
    for (size_t i = 0; i < COUNT(numbers); i++) {
        char what[80];
        wide_files();
        block_for(DRAFT);
        memcpy(now.volume + 16, (const uint8_t[]){BLOCK(numbers[i])}, 2);
        snprintf(what, sizeof what, "reads and writes where the map has block %u: 41", numbers[i]);
        as_it_stands();
        verdict(what, holds(20, 0, 41) && holds(33, 0, 41) && holds(21, 0, 41) && holds(34, 0, 41) && holds(40, 0, 41));
        EXPECT("and delete passes it over", 19, 0, 0, want.volume[0] = 0xE5, want.volume[ENTRY] = 0xE5, want.drive[HELD_AT] = 4,
               want.drive[HELD_AT + 32] = 4, want.drive[HELD_AT + 299 / 8] = 0);
    }
}

// Log-in's refusal, and why: these bytes are laid into slot 5, FINAL's, at byte `at` on.
static void bad(const char *what, size_t at, unsigned block, uint8_t rule, uint8_t place, int other)
{
    uint8_t fault[CHURAWEL_FAULT_BYTES], expected[CHURAWEL_FAULT_BYTES] = {rule, place, BLOCK(block), 5};
    wide_files();
    memcpy(now.volume + 5 * ENTRY + at, (const uint8_t[]){BLOCK(block)}, 2);
    memcpy(expected + 8, now.volume + 5 * ENTRY, 12);
    if (other >= 0) {
        expected[6] = (uint8_t)other;
        memcpy(expected + 20, now.volume + (size_t)other * ENTRY, 12);
    }
    as_it_stands();
    uint32_t said = churawel_fault(HARD.block, HARD.total, HARD.directory, CHURAWEL_STRAIGHT, now.volume, lent.volume, fault, sizeof fault);
    verdict(what, said == (36 | 5u << 16) && memcmp(fault, expected, sizeof fault) == 0 && same_bytes());
    log_in_refused("and log-in: 36 with 5 above", HARD, 36, 5);
}

static void inspecting(void)
{
    bad("block 300 in place 7: rule 8", 30, 300, 8, 7, -1);
    bad("block 1 in place 1: rule 8", 18, 1, 8, 1, -1);
    bad("block 514, whose low byte is a data block: rule 8", 18, 514, 8, 1, -1);
    bad("block 258 in places 0 and 4: rule 9", 24, 258, 9, 4, -1);
    bad("block 299 of slot 0 in place 3: rule 10", 22, 299, 10, 3, 0);
    bad("block 257 of slot 1 in place 0: rule 10", 16, 257, 10, 0, 1);
    wide_files();
    memcpy(now.volume + 5 * ENTRY + 18, (const uint8_t[]){BLOCK(43), BLOCK(259), BLOCK(296)}, 6);
    verdict("numbers that have a byte in common with another's are good", accepted(HARD));
    wide_files();
    memcpy(now.volume + 5 * ENTRY + 1, DRAFT, 11);
    log_in_refused("the same file's group 0 once more: 36 with 5 above", HARD, 36, 5);
    wide_files();
    memcpy(now.volume + 5 * ENTRY + 1, DRAFT, 11);
    now.volume[5 * ENTRY + 12] = 2;
    verdict("extent 2 is of a group of its own", accepted(HARD));
}

static void lines(void)
{
    uint8_t line[CHURAWEL_FILE_BYTES], expected[CHURAWEL_FILE_BYTES] = {0};
    wide_files();
    as_it_stands();
    memcpy(expected + 1, DRAFT, 11);
    expected[14] = 148;
    expected[18] = 5;
    uint32_t said = churawel_file(now.drive, lent.drive, now.volume, lent.volume, 0, line, sizeof line);
    verdict("a file's line: 148 records, 5 blocks", said == 0 && memcmp(line, expected, sizeof line) == 0 && same_bytes());
    memcpy(expected + 1, FINAL, 11);
    expected[14] = 8;
    expected[18] = 1;
    said = churawel_file(now.drive, lent.drive, now.volume, lent.volume, 1, line, sizeof line);
    verdict("the next: 8 records, 1 block", said == 5u << 16 && memcmp(line, expected, sizeof line) == 0 && same_bytes());
}

// The call with at most so many stores; what is left is a good volume, and the drive is closed.
static int cut_to(uint32_t most, uint8_t function, uint32_t made)
{
    want_closed();
    uint32_t said = churawel_cut(most, function, 0, now.drive, lent.drive, now.volume, lent.volume, now.fcb, lent.fcb, now.buffer,
                                 lent.buffer);
    return said == made << 16 && same_bytes() && accepted(HARD);
}

static void ready_to_write(void)
{
    wide_files();
    block_for(DRAFT);
    fill_buffer(9);
    at_record(33);
    as_it_stands();
}

static void cuts(void)
{
    struct entry grown = draft;
    memcpy(grown.map + 4, (const uint8_t[]){BLOCK(259)}, 2);
    ready_to_write();
    verdict("34 cut before its first store", cut_to(0, 34, 0));
    ready_to_write();
    want_stored(259 * B + RECORD);
    verdict("34 cut after its data", cut_to(1, 34, 1));
    ready_to_write();
    want_stored(259 * B + RECORD);
    want_entry(grown);
    verdict("34 with more stores than it has", cut_to(9, 34, 2));
    ready_to_write();
    memset(want.volume + 259 * B, 0, RECORD);
    want_stored(259 * B + RECORD);
    memset(want.volume + 259 * B + 2 * RECORD, 0, 3 * RECORD);
    verdict("40 cut within its block", cut_to(5, 40, 5));
    ready_to_write();
    want.volume[0] = want.volume[ENTRY] = 0xE5;
    verdict("19 stores one directory record", cut_to(9, 19, 1));
    wide_files();
    block_for("NONE       ");
    as_it_stands();
    want_closed();
    verdict("34 of a file that is not there: 3, and 544 zeros",
            churawel_cut(9, 34, 0, now.drive, lent.drive, now.volume, lent.volume, now.fcb, 36, now.buffer, RECORD) == 3
                && same_bytes());
}

// A call, a cut, a file's line, a load and a replacement on the drive as it stands: each 32, and nothing changes.
static int is_closed(void)
{
    struct {
        uint8_t line[CHURAWEL_FILE_BYTES], table[CHURAWEL_TABLE_BYTES], memory[256];
    } is, was;
    int good = 1;
    memset(&is, 7, sizeof is);
    memcpy(&was, &is, sizeof is);
    as_it_stands();
    for (unsigned f = 0; f < 256; f++)
        good = call((uint8_t)f, 255) == 32 && good;
    good = churawel_cut(9, 34, 0, now.drive, lent.drive, now.volume, lent.volume, now.fcb, 36, now.buffer, RECORD) == 32 && good;
    good = churawel_file(now.drive, lent.drive, now.volume, lent.volume, 0, is.line, sizeof is.line) == 32 && good;
    good = churawel_load(now.drive, lent.drive, now.volume, lent.volume, now.fcb, 36, is.table, sizeof is.table, is.memory,
                         sizeof is.memory) == 32
        && good;
    good = churawel_replace_siglum(now.drive, lent.drive, now.volume, lent.volume, now.fcb, 36, 1, 0, 1) == 32 && good;
    return same_bytes() && memcmp(&is, &was, sizeof is) == 0 && good;
}

static void lengths_of_drives(void)
{
    char what[120];
    for (size_t bytes = 0; bytes <= DRIVE_MOST; bytes = bytes == 72 ? 536 : bytes + 1) {
        if (bytes == CHURAWEL_WIDE_DRIVE_BYTES)
            continue;
        wide_files();
        lent.drive = bytes;
        snprintf(what, sizeof what, "T 300 in a drive of %zu bytes: 32 by every number, cut, line, load and replacement, nothing changed", bytes);
        verdict(what, is_closed());
        log_in("and by log-in", HARD, 32, 0);
    }
    static const unsigned narrow[] = {1, 2, 40, 255, 256};
    for (size_t i = 0; i < COUNT(narrow); i++) {
        wide_files();
        memcpy(now.drive + 2, (const uint8_t[]){BLOCK(narrow[i])}, 2);
        snprintf(what, sizeof what, "T %u in a drive of 544 bytes: 32, and nothing changes", narrow[i]);
        verdict(what, is_closed());
        log_in("and log-in with that T", ((struct geometry){2048, narrow[i], 1}), 32, 0);
    }
    wide_files();
    memset(now.drive, 0, lent.drive);
    verdict("544 zeros are closed: 32 by every number", is_closed());
    wide_files();
    memcpy(now.drive + 2, (const uint8_t[]){BLOCK(5000)}, 2);
    as_it_stands();
    verdict("T 5,000 in 544 bytes is closed", call(15, 0) == 32 && same_bytes());
    want_closed();
    verdict("and a cut leaves 544 zeros",
            churawel_cut(9, 34, 0, now.drive, lent.drive, now.volume, lent.volume, now.fcb, 36, now.buffer, RECORD) == 32
                && same_bytes());
    wide_files();
    memset(now.drive + HELD_AT, 0xFF, 512);
    changes_nothing("held blocks never close a drive", 32, 255, 0);
    now.drive[HELD_AT - 1] = 1;
    as_it_stands();
    verdict("byte 31 closes it", call(32, 255) == 32 && same_bytes());
}

// 8 MiB: the last block of all, in each of both block sizes.
static void largest(uint32_t block, uint32_t total)
{
    static uint8_t volume[8 * 1024 * 1024], drive[CHURAWEL_WIDE_DRIVE_BYTES], expected[CHURAWEL_WIDE_DRIVE_BYTES];
    uint8_t fcb[CHURAWEL_FCB_BYTES] = {0}, buffer[RECORD], *last = volume + (size_t)(total - 1) * block;
    char what[100];
    memset(volume, 0xE5, sizeof volume);
    memset(buffer, 7, sizeof buffer);
    memcpy(fcb + 1, DRAFT, 11);
    uint32_t said = churawel_log_in(block, total, 16, CHURAWEL_STRAIGHT, volume, sizeof volume, drive, sizeof drive);
    snprintf(what, sizeof what, "log-in of %u blocks of %u: all but 16 are free", total, block);
    verdict(what, said == (total - 16) << 16);
    int good = churawel_call(22, 0, drive, sizeof drive, volume, sizeof volume, fcb, sizeof fcb, buffer, RECORD) == 0;
    for (uint32_t n = 0; n < total - 1; n++)
        drive[HELD_AT + n / 8] |= (uint8_t)(1u << n % 8);
    memcpy(expected, drive, sizeof drive);
    expected[HELD_AT + (total - 1) / 8] |= 0x80;
    good &= churawel_call(34, 0, drive, sizeof drive, volume, sizeof volume, fcb, sizeof fcb, buffer, RECORD) == 0;
    good &= memcmp(last, buffer, RECORD) == 0 && last[RECORD] == 0xE5 && memcmp(drive, expected, sizeof drive) == 0;
    good &= volume[16] == (total - 1) % 256 && volume[17] == (total - 1) / 256;
    snprintf(what, sizeof what, "the last block, %u, is given, written and held", total - 1);
    verdict(what, good);
}

void hard_disk(void)
{
    limits();
    reading();
    writing();
    names();
    two_extents();
    outside();
    inspecting();
    lines();
    cuts();
    lengths_of_drives();
    largest(2048, 4096);
    largest(4096, 2048);
}
