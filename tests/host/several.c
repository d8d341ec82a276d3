// Several records a call: 220 reads and 221 writes k records, each with its own piece of the buffer, up to the first that is
// refused. The answer has how many were done above the number that stopped it.
#include "desk.h"

#include <string.h>

// k pieces are lent, each with bytes of its own.
static void lend_pieces(size_t k)
{
    lent.buffer = k * RECORD;
    for (size_t i = 0; i < lent.buffer; i++)
        now.buffer[i] = (uint8_t)(17 * (i / RECORD) + i % RECORD * 5 + 3);
}

// So many pieces, from one of them on, show the records from this byte of the volume on, or are stored there.
static void want_pieces_shown(size_t piece, size_t pieces, size_t at)
{
    memcpy(want.buffer + piece * RECORD, now.volume + at, pieces * RECORD);
}

static void want_pieces_stored(size_t piece, size_t pieces, size_t at)
{
    memcpy(want.volume + at, now.buffer + piece * RECORD, pieces * RECORD);
}

static uint32_t done(uint32_t number, uint32_t count)
{
    return number | count << 16;
}

// DRAFT has records 0 to 129; blocks 16 and 17 hold those from 120 on.
static void reads(void)
{
    const struct entry last = {.ex = 1, .rc = 2, .map = {17}};
    some_files();
    block_for(DRAFT);
    now.fcb[32] = 126;
    lend_pieces(3);
    EXPECT("220 reads three records over the border of an extent: 0 with 3 above", 220, 3, done(0, 3),
           want_pieces_shown(0, 2, 16 * 1024 + 6 * RECORD), want_pieces_shown(2, 1, 17 * 1024), want_set_to(last, 1));
    lend_pieces(4);
    EXPECT("220 at the file's end: 1 with 1 above, the other pieces stay", 220, 4, done(1, 1),
           want_pieces_shown(0, 1, 17 * 1024 + RECORD), want_set_to(last, 2));
    changes_nothing("220 again: 1 with 0 above, nothing changes", 220, 4, done(1, 0));
}

// FINAL has records 0 to 2 in block 19; blocks 20 to 39 are free.
static void writes(void)
{
    struct entry final = {.slot = 4, .name = FINAL, .rc = 10, .map = {19, 20}};
    some_files();
    block_for(FINAL);
    now.fcb[32] = 6;
    lend_pieces(4);
    EXPECT("221 writes four records and takes a block: 0 with 4 above", 221, 4, done(0, 4),
           want_pieces_stored(0, 2, 19 * 1024 + 6 * RECORD), want_pieces_stored(2, 2, 20 * 1024), want_entry(final),
           want_set_to(final, 10), want_held(20));
    for (unsigned b = 21; b < 40; b++)
        now.drive[32 + b / 8] |= (uint8_t)(1u << b % 8);
    now.fcb[32] = 14;
    lend_pieces(16);
    final.rc = 16;
    EXPECT("221 with no block left: 2 with 2 above, what was done stays done", 221, 16, done(2, 2),
           want_pieces_stored(0, 2, 20 * 1024 + 6 * RECORD), want_entry(final), want_set_to(final, 16));
    changes_nothing("221 again: 2 with 0 above, nothing changes", 221, 16, done(2, 0));
}

// 46 stands between 34 and 35.
static void order(void)
{
    some_files();
    block_for(DRAFT);
    now.fcb[0] = 9;
    lend_pieces(2);
    as_it_stands();
    int good = 1;
    for (uint8_t function = 220; function <= 221; function++)
        good &= holds(function, 0, 46) && holds(function, 17, 46) && holds(function, 255, 46);
    verdict("46 for 0, 17 and 255 records, before 35 and 42", good);
    good = holds(220, 1, 35) && holds(220, 3, 35) && holds(221, 1, 35) && holds(221, 16, 35);
    verdict("35 for a buffer that is not 128 bytes for each record, before 42", good);
    verdict("then what the single call tests: 42", holds(220, 2, 42) && holds(221, 2, 42));
    lent.fcb = 35;
    verdict("34 before 46", holds(220, 0, 34) && holds(221, 17, 34));
    lent.volume--;
    verdict("33 before 34", holds(220, 0, 33) && holds(221, 17, 33));
    memset(now.drive, 0, 64);
    as_it_stands();
    verdict("32 before 33", holds(220, 0, 32) && holds(221, 17, 32));
}

void several_records(void)
{
    reads();
    writes();
    order();
}
