// The paper's "errors that look right": one case for each, on a volume with two files.
#include "desk.h"

#include <string.h>

#define ONE "ONE     TXT"
#define TWO "TWO     TXT"

// Slot 0: ONE with record 0 in block 1; slot 1: TWO with record 0 in block 2. B 2,048, two extents an entry.
static void two_files(void)
{
    static const struct entry files[] = {{0, 0, ONE, 0, 0, 1, {1}}, {1, 0, TWO, 0, 0, 1, {2}}};
    logged_in("log-in of a volume with two files: 37 free", (struct geometry){2048, 40, 1}, 37, files, COUNT(files));
}

static void edited_map(void)
{
    const struct entry own = {.name = ONE, .rc = 1, .map = {1}};
    two_files();
    block_for(ONE);
    memset(now.fcb + 16, 2, 16);
    EXPECT("a read by a control block whose map names another file's block reads the file's own", 33, 0, 0,
           want_read(2048, own, 0));
    memset(now.fcb + 16, 2, 16);
    fill_buffer(7);
    EXPECT("and a write by such a control block writes the file's own", 34, 0, 0, want_written(2048, own, 0));
}

static void gap(void)
{
    two_files();
    block_for(ONE);
    at_record(40);
    EXPECT("write 40 leaves place 1 empty", 34, 0, 0,
           want_written(3 * 2048 + 8 * RECORD, ENTRY_WITH(.name = ONE, .rc = 41, .map = {1, 0, 3}), 40), want_held(3));
    at_record(16);
    refuses("a record below rc whose map place is 0 is not present: 1", 33, 1);
}

static void later_extent(void)
{
    two_files();
    block_for(ONE);
    at_record(128);
    EXPECT("write 128 moves the entry to ex 1", 34, 0, 0,
           want_written(3 * 2048, ENTRY_WITH(.name = ONE, .ex = 1, .rc = 1, .map = {[0] = 1, [8] = 3}), 0), want_held(3));
    at_record(15);
    EXPECT("then the earlier extent counts 128: record 15 is present", 33, 0, 0,
           want_read(2048 + 15 * RECORD, ENTRY_WITH(.rc = 128, .map = {[0] = 1, [8] = 3}), 15));
}

static void close_keeps_attributes(void)
{
    two_files();
    block_for(ONE);
    now.fcb[9] |= 0x80;
    EXPECT("ONE becomes read-only", 30, 0, 0, want.volume[9] |= 0x80);
    now.fcb[9] &= 0x7F;
    changes_nothing("close with a t1 that says writable: code 0, nothing changes", 16, 0, 0);
    refuses("so a write is still refused: 38", 34, 38);
}

void looking_right(void)
{
    edited_map();
    gap();
    later_extent();
    close_keeps_attributes();
}
