// Request (vii): volumes put on a shelf, its 64 bytes between two guards; the figures are worked out by hand.
#include "churawel.h"
#include "desk.h"

#include <string.h>

enum { REFUSED, FILES, ENTRIES, RECORDS, HELD, FREE, WASTE, SEEN, FIGURES };

static uint8_t bytes[GUARD + 2 * CHURAWEL_SHELF_BYTES + GUARD], wanted[sizeof bytes];
static uint8_t *const shelf = bytes + GUARD;

// A figure in its eight bytes, low byte first.
static void lay(uint8_t *to, unsigned figure, uint64_t x)
{
    for (unsigned i = 0; i < 8; i++)
        to[8 * figure + i] = (uint8_t)(x >> 8 * i);
}

static void lay_all(uint8_t *to, const uint64_t *figures)
{
    for (unsigned i = 0; i < FIGURES; i++)
        lay(to, i, figures[i]);
}

static void bare(void)
{
    memset(bytes, 0x5A, sizeof bytes);
    memset(shelf, 0, CHURAWEL_SHELF_BYTES);
}

// Puts the desk's volume on the shelf; one case: the answer, the shelf and everything else.
static void puts_on(const char *what, struct geometry g, uint32_t number, uint32_t said, const uint64_t *figures)
{
    as_it_stands();
    memcpy(wanted, bytes, sizeof bytes);
    if (figures)
        lay_all(wanted + GUARD, figures);
    uint32_t is = churawel_shelf(shelf, CHURAWEL_SHELF_BYTES, g.block, g.total, g.directory, placing, now.volume, lent.volume);
    verdict(what, is == (number | said << 16) && memcmp(bytes, wanted, sizeof bytes) == 0 && same_bytes());
}

#define PUTS(what, g, said, ...) puts_on(what, g, CHURAWEL_SHELF_COUNTED, said, (const uint64_t[FIGURES]){__VA_ARGS__})

// Request (vii) by the paper's writes 0, 20 and 128: 8 + 5 + 1 records in three blocks of eight.
static void lay_written(void)
{
    fresh(V);
    as_it_stands();
    want_entry(ENTRY_WITH(.name = "SIGLA   TXT", .rc = 21, .map = {1, 0, 2}));
    want_entry(ENTRY_WITH(.slot = 1, .name = "SIGLA   TXT", .ex = 1, .rc = 1, .map = {3}));
    now = want;
}

static void counted(void)
{
    static const struct geometry large = {4096, 4, 1};
    bare();
    fresh(V);
    PUTS("V: 39 free blocks", V, 0, 0, 0, 0, 0, 0, 39, 0, 1);
    lay_written();
    PUTS("V after three writes: 14 records in three blocks, waste 10", V, 0, 0, 1, 2, 14, 3, 75, 10, 2);
    now.volume[0] = 16;
    PUTS("a bad slot: counted as refused, log-in answered 36", V, 36, 1, 1, 2, 14, 3, 75, 10, 3);
    lent.volume--;
    PUTS("a short volume: counted as refused, log-in answered 33", V, 33, 2, 1, 2, 14, 3, 75, 10, 4);
    PUTS("a geometry outside the rules: counted as refused, log-in answered 32", ((struct geometry){1000, 40, 1}), 32, 3, 1, 2, 14, 3, 75,
         10, 5);
    fresh(large);
    as_it_stands();
    want_entry(ENTRY_WITH(.slot = 9, .user = 2, .name = "BAND    TXT", .ex = 2, .rc = 7, .map = {1, 0, 0, 0, 2, 0, 0, 0, 3}));
    now = want;
    PUTS("another geometry: extents 0 and 1 count whole, the last has 7", large, 0, 3, 2, 3, 14 + 32 + 32 + 7, 6, 75, 10 + 25, 6);
}

// Block numbers of two bytes: 16 + 8 records in two of 256 data blocks.
static void hard_disk_counted(void)
{
    static const struct geometry hard = {2048, 257, 1};
    bare();
    fresh(hard);
    as_it_stands();
    want_entry(ENTRY_WITH(.slot = 5, .user = 1, .name = "BAND    TXT", .rc = 40, .map = {BLOCK(256), BLOCK(0), BLOCK(1)}));
    now = want;
    PUTS("a hard disk: 24 records in two blocks, one of them 256", hard, 0, 0, 1, 1, 24, 2, 254, 8, 1);
}

// An image that is E5H throughout, but for an entry in the first slot of logical record 1, which is sector 7 of track 2.
static void floppy_counted(void)
{
    static const struct geometry floppy = {1024, 243, 2}, as_long = {1024, 251, 2};
    enum { IMAGE = 256256, SECTOR_7 = (2 * 26 + 6) * RECORD };
    bare();
    fresh(as_long);
    lent.volume = IMAGE;
    memset(now.volume, 0xE5, IMAGE);
    as_it_stands();
    want_entry(ENTRY_WITH(.slot = SECTOR_7 / ENTRY, .name = "BAND    TXT", .rc = 9, .map = {2, 242}));
    now = want;
    placing = CHURAWEL_EIGHT_INCH;
    PUTS("a floppy: 9 records in two blocks", floppy, 0, 0, 1, 1, 9, 2, 239, 7, 1);
    placing = CHURAWEL_STRAIGHT;
    PUTS("the image as a straight volume: 33", floppy, 33, 1, 1, 1, 9, 2, 239, 7, 2);
    placing = 2;
    PUTS("a placing that is none: 32", floppy, 32, 2, 1, 1, 9, 2, 239, 7, 3);
}

static void refused(void)
{
    bare();
    lay(shelf, SEEN, 65535);
    lay(shelf, FILES, 12);
    lay_written();
    puts_on("the 65,536th volume: 47", V, CHURAWEL_SHELF_FULL, 0, NULL);
    lay(shelf, WASTE, (uint64_t)1 << 48);
    puts_on("a figure of 2^48, before 47: 32", V, CHURAWEL_SHELF_OUTSIDE, 0, NULL);
    lay(shelf, WASTE, ((uint64_t)1 << 48) - 1);
    lay(shelf, SEEN, 65534);
    PUTS("the 65,535th volume, with a figure just below 2^48", V, 0, 0, 13, 2, 14, 3, 36, ((uint64_t)1 << 48) + 9, 65535);
    puts_on("and then it is outside: 32", V, CHURAWEL_SHELF_OUTSIDE, 0, NULL);
    bare();
    static const size_t lengths[] = {0, 1, 63, 65, 128};
    int good = 1;
    for (size_t i = 0; i < COUNT(lengths); i++) {
        memcpy(wanted, bytes, sizeof bytes);
        as_it_stands();
        good &= churawel_shelf(shelf, lengths[i], 1024, 40, 1, placing, now.volume, lent.volume) == CHURAWEL_SHELF_OUTSIDE;
        good &= memcmp(bytes, wanted, sizeof bytes) == 0 && same_bytes();
    }
    verdict("a shelf of 0, 1, 63, 65 or 128 bytes: 32", good);
}

void on_the_shelf(void)
{
    counted();
    hard_disk_counted();
    floppy_counted();
    refused();
}
