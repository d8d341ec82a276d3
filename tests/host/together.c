// Request (ix): a block is the lowest free one above the block in the nearest lower used place of the same entry, and the
// lowest free one where that place or such a block doesn't exist.
#include "desk.h"

#include <string.h>

#define LEMMATA "LEMMATA TXT"

// B 1,024, T 8, D 1. Slot 0: LEMMATA with block 3; slot 1: another file with block 4; 1, 2, 5, 6 and 7 are free.
static void two_files(void)
{
    static const struct entry files[] = {{0, 0, LEMMATA, 0, 0, 8, {3}}, {1, 0, "OTHER      ", 0, 0, 8, {4}}};
    logged_in("log-in of two files with blocks 3 and 4: 5 free", (struct geometry){1024, 8, 1}, 5, files, COUNT(files));
    block_for(LEMMATA);
}

// A random write of the first record of a place, which takes this block; the entry afterwards.
static void takes(const char *what, uint32_t n, unsigned block, struct entry e)
{
    at_record(n);
    fill_buffer((uint8_t)n);
    EXPECT(what, 34, 0, 0, want_written(block * 1024, e, (uint8_t)(n % 128)), want_held(block));
}

static void above_the_nearest(void)
{
    two_files();
    takes("a gap below: place 3 gets 5, above block 3 of place 0; 4 is held, 1 is passed over", 24, 5,
          ENTRY_WITH(.name = LEMMATA, .rc = 25, .map = {3, 0, 0, 5}));
    takes("out of order: place 1 gets 6, above block 3", 8, 6, ENTRY_WITH(.name = LEMMATA, .rc = 25, .map = {3, 6, 0, 5}));
    takes("out of order: place 2 gets 7, above block 6 of place 1", 16, 7,
          ENTRY_WITH(.name = LEMMATA, .rc = 25, .map = {3, 6, 7, 5}));
    takes("none is free above block 5 of place 3: place 4 gets the lowest, 1", 32, 1,
          ENTRY_WITH(.name = LEMMATA, .rc = 33, .map = {3, 6, 7, 5, 1}));
    takes("a first place, of a new entry: the lowest free block, 2", 128, 2,
          ENTRY_WITH(.slot = 2, .name = LEMMATA, .ex = 1, .rc = 1, .map = {2}));
    at_record(136);
    refuses("none is free: 2", 34, 2);
    refuses("none is free, by function 40: 2", 40, 2);
}

static void every_write(void)
{
    two_files();
    now.fcb[32] = 8;
    fill_buffer(1);
    EXPECT("21 takes the block above too", 21, 0, 0,
           want_written(5 * 1024, ENTRY_WITH(.name = LEMMATA, .rc = 9, .map = {3, 5}), 9), want_held(5));
    at_record(16);
    EXPECT("and so does 40", 40, 0, 0, memset(want.volume + 6 * 1024, 0, 1024),
           want_written(6 * 1024, ENTRY_WITH(.name = LEMMATA, .rc = 17, .map = {3, 5, 6}), 16), want_held(6));
    now.volume[16 + 2] = 8;
    takes("a number beyond T-1 in the nearest place: the lowest free block, 1", 24, 1,
          ENTRY_WITH(.name = LEMMATA, .rc = 25, .map = {3, 5, 8, 1}));
}

void kept_together(void)
{
    above_the_nearest();
    every_write();
}
