// Request (vi): the memory calls, and a small program loaded from V, worked out by hand from the manual (3.7, 4.4, 5.5).
#include "churawel.h"
#include "desk.h"

#include <string.h>

enum { MEMORY_BYTES = 0x200 * 16, FILLED = 0xAA };

// What is lent beside the desk, with bytes behind that no call may touch; and what must stand there.
struct memory {
    uint8_t mcb[CHURAWEL_MCB_BYTES + GUARD];
    uint8_t table[CHURAWEL_TABLE_BYTES + GUARD];
    uint8_t bytes[MEMORY_BYTES + GUARD];
};

static struct memory is, should;

static void put_word(uint8_t *at, unsigned word)
{
    at[0] = (uint8_t)word;
    at[1] = (uint8_t)(word >> 8);
}

// A table as it is written anew: so many pieces and regions, two words each, and zeros behind them.
struct spans {
    unsigned pieces, regions;
    unsigned piece[2][2], region[4][2];
};

static void put_table(uint8_t *table, struct spans s)
{
    memset(table, 0, CHURAWEL_TABLE_BYTES);
    table[0] = (uint8_t)s.pieces;
    table[1] = (uint8_t)s.regions;
    for (unsigned i = 0; i < s.pieces; i++) {
        put_word(table + 2 + 4 * i, s.piece[i][0]);
        put_word(table + 4 + 4 * i, s.piece[i][1]);
    }
    for (unsigned i = 0; i < s.regions; i++) {
        put_word(table + 34 + 4 * i, s.region[i][0]);
        put_word(table + 36 + 4 * i, s.region[i][1]);
    }
}

static void put_mcb(uint8_t *mcb, unsigned base, unsigned length, uint8_t ext)
{
    put_word(mcb, base);
    put_word(mcb + 2, length);
    mcb[4] = ext;
}

static void stand(struct spans s)
{
    memset(&is, FILLED, sizeof is);
    put_table(is.table, s);
    should = is;
}

// A memory call with this control block in a memory of so many bytes, and the block that must be left.
static void memory_call(const char *what, uint8_t function, size_t bytes, uint32_t answer, const unsigned mcb[3], const unsigned left[3])
{
    put_mcb(is.mcb, mcb[0], mcb[1], (uint8_t)mcb[2]);
    put_mcb(should.mcb, left[0], left[1], (uint8_t)left[2]);
    uint32_t said = churawel_memory(function, is.mcb, CHURAWEL_MCB_BYTES, is.table, CHURAWEL_TABLE_BYTES, bytes);
    verdict(what, said == answer && memcmp(&is, &should, sizeof is) == 0);
}

#define MCB(base, length, ext) ((const unsigned[3]){base, length, ext})
#define CALL(what, function, answer, mcb, left) memory_call(what, function, 0x10000, answer, mcb, left)
#define REFUSED(what, function, answer, mcb) CALL(what, function, answer, mcb, mcb)

// The manual's example (5.5.1, Bild 9 and 10): a region of 600H paragraphs from 100H on, and another beside it.
static void manual_example(void)
{
    struct spans s = {1, 2, {{0x100, 0xF00}}, {{0x100, 0x600}, {0x700, 0x100}}};
    stand(s);
    REFUSED("57: a part behind the region's end: 64", 57, 64, MCB(0x700, 0x200, 0));
    REFUSED("57: a part from the middle: 64", 57, 64, MCB(0x300, 0x200, 0));
    REFUSED("57: no paragraph: 64", 57, 64, MCB(0x100, 0, 0));
    s.region[0][1] = 0x400;
    put_table(should.table, s);
    CALL("57: the last 200H paragraphs, from 500H on; M-Ext becomes 0", 57, 0, MCB(0x500, 0x200, 1), MCB(0x500, 0x200, 0));
    CALL("53: the longest run is behind both, cut to the length asked", 53, 0, MCB(7, 0x300, 3), MCB(0x800, 0x300, 0));
    CALL("53: and all of it", 53, 0, MCB(7, 0xFFFF, 3), MCB(0x800, 0x800, 0));
    CALL("54: what was freed is free", 54, 0, MCB(0x500, 0x200, 9), MCB(0x500, 0x200, 0));
    REFUSED("54: with one paragraph of the other region: 62", 54, 62, MCB(0x500, 0x201, 9));
    s.regions = 3;
    s.region[2][0] = 0x500;
    s.region[2][1] = 0x80;
    put_table(should.table, s);
    CALL("55: the lowest start with room, whatever M-Base says", 55, 0, MCB(0x900, 0x80, 9), MCB(0x500, 0x80, 0));
    s.regions = 4;
    s.region[3][0] = 0xFFF;
    s.region[3][1] = 1;
    put_table(should.table, s);
    CALL("56: the last paragraph of the piece", 56, 0, MCB(0xFFF, 1, 9), MCB(0xFFF, 1, 0));
    REFUSED("55: none for 801H paragraphs: 62", 55, 62, MCB(0, 0x801, 0));
    REFUSED("55: none for 0 paragraphs: 62", 55, 62, MCB(0, 0, 0));
    s.regions = 0;
    put_table(should.table, s);
    CALL("57 with M-Ext FFH frees all", 57, 0, MCB(1, 2, 255), MCB(1, 2, 0));
}

// Two pieces that touch, and bytes behind the ends of the table.
static void pieces_and_ends(void)
{
    struct spans s = {2, 0, {{0x10, 0x10}, {0x20, 0x10}}, {{0}}};
    stand(s);
    memset(is.table + 10, 0x77, 24);
    memset(is.table + 34, 0x77, 32);
    should = is;
    REFUSED("56: no region lies in two pieces, though they touch: 62", 56, 62, MCB(0x1F, 2, 0));
    CALL("53: a run ends where its piece ends; bytes behind the table's ends stay", 53, 0, MCB(0, 0xFFFF, 0), MCB(0x10, 0x10, 0));
    s.regions = 1;
    s.region[0][0] = 0x1F;
    s.region[0][1] = 1;
    put_table(should.table, s);
    CALL("56 writes the table anew, with zeros behind its ends", 56, 0, MCB(0x1F, 1, 0), MCB(0x1F, 1, 0));
    memory_call("65: a piece leaves the memory by one byte", 58, 0x2FF, 65, MCB(0, 0, 0), MCB(0, 0, 0));
    s.regions = 0;
    put_table(should.table, s);
    memory_call("58 frees all, and leaves the control block", 58, 0x300, 0, MCB(1, 2, 3), MCB(1, 2, 3));
}

static void lengths_and_functions(void)
{
    struct spans s = {1, 0, {{0x10, 0x10}}, {{0}}};
    int good = 1;
    stand(s);
    for (unsigned function = 0; function < 256; function++)
        if (function < 53 || function > 58)
            good &= churawel_memory((uint8_t)function, is.mcb, 4, is.table, 65, 0) == 31;
    verdict("31 for every other function, before 34 and 65", good && memcmp(&is, &should, sizeof is) == 0);
    good = 1;
    for (uint8_t function = 53; function < 58; function++)
        good &= churawel_memory(function, is.mcb, 4, is.table, 65, 0) == 34 && churawel_memory(function, is.mcb, 6, is.table, 65, 0) == 34;
    verdict("34 for a control block of four or six bytes, before 65", good && memcmp(&is, &should, sizeof is) == 0);
    good = churawel_memory(53, is.mcb, 5, is.table, 65, 0x200) == 65 && churawel_memory(53, is.mcb, 5, is.table, 67, 0x200) == 65;
    is.table[0] = should.table[0] = 9;
    good &= churawel_memory(58, is.mcb, 0, is.table, 66, 0x200) == 65;
    is.table[0] = should.table[0] = 1;
    is.table[1] = should.table[1] = 9;
    good &= churawel_memory(58, is.mcb, 0, is.table, 66, 0x200) == 65;
    verdict("65 for a table of 65 or 67 bytes, and for nine pieces or regions", good && memcmp(&is, &should, sizeof is) == 0);
}

// ---- load: COLLATE.CMD has code of 2 paragraphs, at least 10H, and data of 11H paragraphs, at least 20H and up to 28H. Its header is
// record 0, its image, 13H paragraphs, the three records behind it: block 1 of V from byte 1,024 on.
#define COLLATE "COLLATE CMD"

static const uint8_t header[] = {1, 2, 0, 0, 0, 0x10, 0, 0x10, 0, 0x12, 0x11, 0, 0, 0, 0x20, 0, 0x28, 0, 0};

static void on_disk(uint8_t records)
{
    static const struct entry none[] = {{.name = COLLATE, .rc = 0, .map = {1}}};
    logged_in("log-in of V with COLLATE.CMD: 38 free", V, 38, none, 1);
    now.volume[15] = records;
    memset(now.volume + 1024, 0, RECORD);
    memcpy(now.volume + 1024, header, sizeof header);
    for (unsigned i = 0; i < 3 * RECORD; i++)
        now.volume[1024 + RECORD + i] = (uint8_t)(i / 16 + 1);
    block_for(COLLATE);
    memset(now.fcb + 12, 0xFF, 24);
    as_it_stands();
}

static void load(const char *what, uint32_t answer)
{
    uint32_t said = churawel_load(now.drive, lent.drive, now.volume, lent.volume, now.fcb, lent.fcb, is.table, CHURAWEL_TABLE_BYTES,
                                  is.bytes, MEMORY_BYTES);
    verdict(what, said == answer && memcmp(&is, &should, sizeof is) == 0 && same_bytes());
}

// One piece from 20H to 1FFH, of which 20H to 2FH are granted: code goes to 30H, data behind it to 40H, with its most.
static void small_program(void)
{
    struct spans s = {1, 1, {{0x20, 0x1E0}}, {{0x20, 0x10}}};
    static const uint8_t page[] = {0xFF, 0, 0, 0x30, 0, 0, 0x7F, 2, 0, 0x40, 0, 0};
    on_disk(4);
    stand(s);
    s.regions = 3;
    s.region[1][0] = 0x30;
    s.region[1][1] = 0x10;
    s.region[2][0] = 0x40;
    s.region[2][1] = 0x28;
    put_table(should.table, s);
    for (unsigned i = 0; i < 2 * 16; i++)
        should.bytes[0x300 + i] = (uint8_t)(i / 16 + 1);
    for (unsigned i = 0; i < 0x11 * 16; i++)
        should.bytes[0x400 + i] = (uint8_t)(i / 16 + 3);
    memset(should.bytes + 0x400, 0, 0x30);
    memcpy(should.bytes + 0x400, page, sizeof page);
    load("59: code at 30H, data with the base page at 40H", 0x40u << 16);
    s.regions = 0;
    put_table(should.table, s);
    memory_call("58 frees what was loaded", 58, MEMORY_BYTES, 0, MCB(0, 0, 0), MCB(0, 0, 0));
}

// Each test before the ones behind it: all is wrong at first, and is mended in the order of the tests.
static void load_refused(void)
{
    struct spans s = {1, 4, {{0x20, 0x2F}}, {{0x20, 0}, {0x20, 0}, {0x20, 0}, {0x20, 0}}};
    on_disk(3);
    stand(s);
    is.table[1] = should.table[1] = 7;
    for (unsigned i = 4; i < 7; i++) {
        put_word(is.table + 34 + 4 * i, 0x20);
        put_word(should.table + 34 + 4 * i, 0x20);
    }
    put_word(is.table + 2, 0x1E0);
    put_word(should.table + 2, 0x1E0);
    now.volume[1024 + 9] = want.volume[1024 + 9] = 0x11;
    now.fcb[11] = want.fcb[11] = 'X';
    load("3 before 65: no such file", 3);
    now.fcb[11] = want.fcb[11] = 'D';
    load("65 before 60: the piece leaves the memory", 65);
    put_word(is.table + 2, 0x20);
    put_word(should.table + 2, 0x20);
    load("60 before 61: code twice", 60);
    now.volume[1024 + 9] = want.volume[1024 + 9] = 0x12;
    load("61 before 63: a record too few", 61);
    now.volume[15] = want.volume[15] = 4;
    load("63 before 62: one place for two groups", 63);
    is.table[1] = should.table[1] = 6;
    load("62: 2FH paragraphs have room for the code, and none for the data; nothing is granted", 62);
}

void memory_and_load(void)
{
    manual_example();
    pieces_and_ends();
    lengths_and_functions();
    small_program();
    load_refused();
}
