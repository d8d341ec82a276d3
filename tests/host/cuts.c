// Request (xii): a call cut after each number of its stores. Which records a call stores, in which order, and their bytes are
// written down here by hand: data first, then directory records, rising.
#include "churawel.h"
#include "desk.h"

#include <string.h>

enum { MOST = 16 };

static const struct geometry G = {1024, 12, 2};

#define ALPHA "ALPHA   TXT"
#define BETA "BETA    TXT"
#define GAMMA "GAMMA   TXT"
#define OMEGA "OMEGA   TXT"

// Directory records 0, 1 and 2 hold entries of ALPHA, record 0 one of BETA too; slot 2 is the lowest empty one. Block b begins
// at record 8b; blocks 2 to 5 are held, 6 to 11 free.
static void two_files(void)
{
    static const struct entry files[] = {
        {0, 0, ALPHA, 0, 0, 8, {2}}, {1, 0, BETA, 0, 0, 8, {3}}, {5, 0, ALPHA, 1, 0, 4, {4}}, {9, 0, ALPHA, 2, 0, 1, {5}}};
    logged_in("log-in of a file in three directory records: 6 free", G, 6, files, COUNT(files));
}

// The slots of ALPHA.
static const size_t alpha[] = {0, 5, 9};

static uint32_t cut(uint32_t most, uint8_t function, uint8_t parameter)
{
    return churawel_cut(most, function, parameter, now.drive, lent.drive, now.volume, lent.volume, now.fcb, lent.fcb,
                        now.buffer, lent.buffer);
}

// Is the volume one that log-in accepts?
static int accepted(void)
{
    uint8_t drive[CHURAWEL_DRIVE_BYTES];
    return CHURAWEL_NUMBER(churawel_log_in(G.block, G.total, G.directory, CHURAWEL_STRAIGHT, now.volume, lent.volume, drive, sizeof drive)) == 0;
}

// The volumes that must stand after 0, 1, 2 .. stores, and how many stores there are.
static uint8_t volumes[MOST + 1][VOLUME_MOST];
static size_t count;

// The volume of `want` stands after the stores so far; the first has none before it.
static void before_all(void)
{
    as_it_stands();
    count = 0;
    memcpy(volumes[0], want.volume, VOLUME_MOST);
}

static void next_store(void)
{
    memcpy(volumes[++count], want.volume, VOLUME_MOST);
}

// Does the call with at most so many stores leave that volume, close the drive, and change nothing else?
static int cut_after(uint32_t most, uint8_t function, uint8_t parameter)
{
    size_t made = most < count ? most : count;
    as_it_stands();
    memcpy(want.volume, volumes[made], VOLUME_MOST);
    want_closed();
    return cut(most, function, parameter) == made << 16 && same_bytes() && accepted();
}

// A call cut after each number of stores, and with more than enough; one case. The desk is left as it was.
static void cut_everywhere(const char *what, uint8_t function, uint8_t parameter)
{
    static struct desk before;
    int good = 1;
    before = now;
    for (uint32_t most = 0; most <= count + 1; most++) {
        good = cut_after(most, function, parameter) && good;
        now = before;
    }
    good = cut_after(UINT32_MAX, function, parameter) && good;
    verdict(what, good);
    now = before;
}

// The same of a single call that stores these records in this order, each once; all of them laid down are `want`.
static void stores(const char *what, uint8_t function, const size_t *records, size_t number)
{
    static uint8_t after[VOLUME_MOST];
    memcpy(after, want.volume, VOLUME_MOST);
    before_all();
    for (size_t i = 0; i < number; i++) {
        memcpy(want.volume + records[i] * RECORD, after + records[i] * RECORD, RECORD);
        next_store();
    }
    cut_everywhere(what, function, 0);
}
#define RECORDS(...) (const size_t[]){__VA_ARGS__}, COUNT(((const size_t[]){__VA_ARGS__}))
#define STORES(what, function, records, ...) (as_it_stands(), __VA_ARGS__, stores(what, function, records))

static void want_erased(void)
{
    for (size_t i = 0; i < COUNT(alpha); i++)
        want.volume[alpha[i] * ENTRY] = 0xE5;
}

static void want_renamed(void)
{
    for (size_t i = 0; i < COUNT(alpha); i++)
        memcpy(want.volume + alpha[i] * ENTRY + 1, OMEGA, 11);
}

static void want_read_only(void)
{
    for (size_t i = 0; i < COUNT(alpha); i++)
        want.volume[alpha[i] * ENTRY + 9] |= 0x80;
}

static void names(void)
{
    two_files();
    block_for(ALPHA);
    STORES("19 stores each directory record of the file, rising", 19, RECORDS(0, 1, 2), want_erased());
    block_for("????????TXT");
    STORES("19 of a pattern: a record with two matches is stored once", 19, RECORDS(0, 1, 2), want_erased(),
           want.volume[ENTRY] = 0xE5);
    block_for(GAMMA);
    STORES("22 stores the directory record of the new entry; its code is not answered", 22, RECORDS(0), want_made(2, GAMMA));
    block_to_rename(ALPHA, OMEGA);
    STORES("23 stores each directory record of the file, rising", 23, RECORDS(0, 1, 2), want_renamed());
    block_for(ALPHA);
    STORES("30 stores them where no byte changes, too", 30, RECORDS(0, 1, 2), (void)0);
    now.fcb[9] |= 0x80;
    STORES("30 with the read-only bit", 30, RECORDS(0, 1, 2), want_read_only());
}

static void writes(void)
{
    const struct entry second = {.name = ALPHA, .rc = 11, .map = {2, 6}};
    two_files();
    block_for(ALPHA);
    fill_buffer(7);
    at_record(3);
    STORES("34 of a record that is there: the data, then the entry, where no byte changes", 34, RECORDS(19, 0),
           want_stored(19 * RECORD));
    STORES("40 of a record that is there fills nothing", 40, RECORDS(19, 0), want_stored(19 * RECORD));
    at_record(10);
    STORES("34 in a new block stores its record alone", 34, RECORDS(50, 0), want_stored(50 * RECORD), want_entry(second));
    STORES("40 in a new block stores each record of the block once, rising", 40,
           RECORDS(48, 49, 50, 51, 52, 53, 54, 55, 0), memset(want.volume + 6 * 1024, 0, 1024), want_stored(50 * RECORD),
           want_entry(second));
    at_record(384);
    STORES("34 in a new group: the data, then the lowest empty slot", 34, RECORDS(48, 0), want_stored(48 * RECORD),
           want_entry(ENTRY_WITH(.slot = 2, .name = ALPHA, .ex = 3, .rc = 1, .map = {6})));
    now.fcb[32] = 8;
    STORES("21: the data, then the entry", 21, RECORDS(48, 0), want_stored(48 * RECORD),
           want_entry(ENTRY_WITH(.name = ALPHA, .rc = 9, .map = {2, 6})));
    now.fcb[12] = 2;
    now.fcb[32] = 1;
    STORES("21 in the last group: its own directory record", 21, RECORDS(41, 2), want_stored(41 * RECORD),
           want_entry(ENTRY_WITH(.slot = 9, .name = ALPHA, .ex = 2, .rc = 2, .map = {5})));
}

// ALPHA from record n of group 0 on, three pieces.
static void three_pieces(uint8_t n)
{
    two_files();
    block_for(ALPHA);
    now.fcb[32] = n;
    lent.buffer = 3 * RECORD;
    for (size_t i = 0; i < lent.buffer; i++)
        now.buffer[i] = (uint8_t)(i * 5 + i / RECORD);
}

// A single write of a piece: two stores, its record and the entry's.
static void next_write(size_t piece, size_t record, struct entry e)
{
    memcpy(want.volume + record * RECORD, now.buffer + piece * RECORD, RECORD);
    next_store();
    want_entry(e);
    next_store();
}

// Every block counts as held.
static void hold_all(void)
{
    memset(now.drive + 32, 0xFF, 32);
}

// 221 stores as its single writes would, one after another.
static void several(void)
{
    const struct entry first = {.name = ALPHA, .rc = 8, .map = {2}};
    three_pieces(6);
    before_all();
    next_write(0, 22, first);
    next_write(1, 23, first);
    next_write(2, 48, ENTRY_WITH(.name = ALPHA, .rc = 9, .map = {2, 6}));
    cut_everywhere("221: the stores of each write after those of the last", 221, 3);
    three_pieces(7);
    hold_all();
    before_all();
    next_write(0, 23, first);
    cut_everywhere("221 that stops after its first record is not refused: 0, and its two stores", 221, 3);
}

// A call that stores nothing, whatever the number of stores, and has this number, 0 where it is not refused; the drive is
// closed and nothing else changes. The desk is left as it was.
static int stores_none(uint8_t function, uint8_t parameter, uint32_t number)
{
    static const uint32_t mosts[] = {0, 1, MOST, UINT32_MAX};
    static struct desk before;
    int good = 1;
    before = now;
    as_it_stands();
    want_closed();
    for (size_t i = 0; i < COUNT(mosts); i++) {
        good = cut(mosts[i], function, parameter) == number && same_bytes() && good;
        now = before;
    }
    return good;
}

// One case.
static void stores_nothing(const char *what, uint8_t function, uint8_t parameter, uint32_t number)
{
    verdict(what, stores_none(function, parameter, number));
}

static void refused(void)
{
    two_files();
    block_for(GAMMA);
    stores_nothing("19 of a file that is not there: 255, no store, and the drive closed", 19, 0, 255);
    stores_nothing("30 likewise", 30, 0, 255);
    stores_nothing("34 likewise: 3", 34, 0, 3);
    stores_nothing("21 likewise: 3", 21, 0, 3);
    stores_nothing("221 of no record: 46", 221, 0, 46);
    at_record(65536);
    stores_nothing("40 with r2 not 0: 6", 40, 0, 6);
    block_for(BETA);
    stores_nothing("22 of a name that exists: 43", 22, 0, 43);
    block_to_rename(BETA, ALPHA);
    stores_nothing("23 to a name that exists: 43", 23, 0, 43);
    now.drive[7] = 1;
    stores_nothing("19 on a protected drive: 37", 19, 0, 37);
    three_pieces(8);
    hold_all();
    stores_nothing("221 with no block for its first record: 2", 221, 3, 2);
}

// What changes nothing on the disk answers its refusal, and no code, count or free blocks.
static void without_stores(void)
{
    static const uint8_t done[] = {13, 15, 16, 17, 20, 28, 33, 35, 36, 37};
    int good = 1;
    two_files();
    block_for(ALPHA);
    now.fcb[12] = 1;
    for (size_t i = 0; i < COUNT(done); i++)
        good = stores_none(done[i], 0, 0) && good;
    verdict("13, 15, 16, 17, 20, 28, 33, 35, 36 and 37: 0, no store, and buffer and control block as given", good);
    stores_nothing("220 that reads one record: 0", 220, 1, 0);
    now.drive[6] = 3;
    stores_nothing("32 that asks for user 3: 0", 32, 255, 0);
    stores_nothing("32 that sets a user: 0", 32, 5, 0);
    stores_nothing("32 with 16: 44", 32, 16, 44);
    stores_nothing("15 of a file that user 3 has not: 255", 15, 0, 255);
    stores_nothing("18 with no search open: 255", 18, 0, 255);
    three_pieces(7);
    stores_nothing("220 that stops after its first record is not refused: 0", 220, 3, 0);
    now.fcb[32] = 8;
    stores_nothing("220 that stops at its first record: 1", 220, 3, 1);
    now.volume[0] = 16;
    stores_nothing("13 of a volume with a bad slot: 36, and no slot", 13, 0, 36);
    stores_nothing("37 likewise", 37, 0, 36);
}

// Is each number that is not served refused by 31?
static void not_served(void)
{
    int good = 1;
    two_files();
    for (unsigned f = 0; f < 13; f++)
        good = stores_none((uint8_t)f, 0, 31) && good;
    verdict("numbers that are not served: 31, no store, and the drive closed",
            good && stores_none(99, 0, 31) && stores_none(222, 1, 31) && stores_none(255, 0, 31));
}

static void lengths(void)
{
    two_files();
    block_for(ALPHA);
    lent.buffer = RECORD - 1;
    stores_nothing("34 with a buffer of 127 bytes: 35", 34, 0, 35);
    stores_nothing("221 of one record with it: 35", 221, 1, 35);
    lent.fcb = 35;
    stores_nothing("34 with a control block of 35 bytes, too: 34", 34, 0, 34);
    lent.volume--;
    stores_nothing("34 with another length of volume, too: 33", 34, 0, 33);
    stores_nothing("13 with another length of volume: 33", 13, 0, 33);
    now.drive[24] = 1;
    stores_nothing("34 with a drive that is no open state, too: 32, and the drive becomes zeros", 34, 0, 32);
    stores_nothing("a number that is not served, too: 32", 99, 0, 32);
    memset(now.drive, 0, CHURAWEL_DRIVE_BYTES);
    stores_nothing("a closed drive: 32", 19, 0, 32);
    int good = 1;
    two_files();
    block_for(ALPHA);
    as_it_stands();
    for (lent.drive = 0; lent.drive <= DRIVE_MOST; lent.drive++)
        if (lent.drive != CHURAWEL_DRIVE_BYTES)
            good = cut(0, 19, 0) == 32 && cut(MOST, 19, 0) == 32 && cut(MOST, 99, 0) == 32 && same_bytes() && good;
    lent.drive = CHURAWEL_DRIVE_BYTES;
    verdict("a drive of another length up to 640 bytes: 32, and nothing changes", good);
}

void cut_calls(void)
{
    names();
    writes();
    several();
    refused();
    without_stores();
    not_served();
    lengths();
}
