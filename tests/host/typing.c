// Names the typist can't type: make and rename's new name are refused by 45, and an old file called a=b is opened, read,
// written, renamed away and deleted.
#include "desk.h"

#include <stdio.h>
#include <string.h>

#define OLD "a=b        "
#define SIGLA "SIGLA   TXT"

// V with a=b in slot 0, record 0 in block 1, logged in.
static void old_file(void)
{
    logged_in("log-in of V with a file called a=b: 38 free", V, 38, &ENTRY_WITH(.name = OLD, .rc = 1, .map = {1}), 1);
}

// Make of these eleven bytes, and a rename of a=b to them: both refused by 45, and nothing changes?
static int both_refused(const char *name)
{
    block_for(name);
    as_it_stands();
    int good = holds(22, 0, 45);
    block_to_rename(OLD, name);
    as_it_stands();
    return good && holds(23, 0, 45);
}

// Each forbidden byte in each place, with and without a top bit.
static void each_byte(void)
{
    static const char bytes[] = "<>.,;:=*[]abcdefghijklmnopqrstuvwxyz";
    old_file();
    for (const char *byte = bytes; *byte != '\0'; byte++) {
        int good = 1;
        for (unsigned place = 0; place < 11; place++) {
            char name[] = "ABCDEFGHIJK";
            name[place] = *byte;
            good &= both_refused(name);
            name[place] = (char)(*byte | 0x80);
            good &= both_refused(name);
        }
        char what[80];
        snprintf(what, sizeof what, "%c in a new name: 45 from make and rename", *byte);
        verdict(what, good);
    }
}

static void blanks(void)
{
    static const char *const refused[] = {"A B        ", "AB   C     ", "A       A B", "A        BC", "A        B ", "A         C"};
    static const char *const taken[] = {"A          ", "ABCDEFG TXT", "ABCDEFGHT  ", "ABCDEFGHTX "};
    char what[80];
    for (size_t i = 0; i < COUNT(refused); i++) {
        snprintf(what, sizeof what, "the new name '%s': 45 from make and rename", refused[i]);
        verdict(what, both_refused(refused[i]));
    }
    for (uint8_t i = 0; i < COUNT(taken); i++) {
        snprintf(what, sizeof what, "make '%s': done", taken[i]);
        block_for(taken[i]);
        EXPECT(what, 22, 0, (i + 1u) % 4, want_made(i + 1u, taken[i]));
    }
}

// Straight after 39, before 40, 37, 255 and 43.
static void in_order(void)
{
    old_file();
    block_for("a=?        ");
    refuses("make a=?: 39, before 45", 22, 39);
    block_to_rename("A?         ", OLD);
    refuses("rename with 3FH in the old name to a=b: 39, before 45", 23, 39);
    block_to_rename("NOTHING    ", OLD);
    refuses("rename of a file that is not there to a=b: 45, before 255", 23, 45);
    block_for(OLD);
    refuses("make a=b, which exists: 45, before 43", 22, 45);
    now.fcb[12] = 1;
    refuses("make a=b with ex 1: 45, before 40", 22, 45);
    block_to_rename(OLD, OLD);
    refuses("rename a=b to itself: 45, before 43", 23, 45);
    now.drive[7] = 1;
    refuses("the same on a protected drive: 45, before 37", 23, 45);
}

static void read_and_written(void)
{
    struct entry file = {.name = OLD, .rc = 1, .map = {1}};
    old_file();
    block_for(OLD);
    EXPECT("a=b is opened", 15, 0, 0, want_opened(file));
    at_record(0);
    EXPECT("a=b is read", 33, 0, 0, want_read(1024, file, 0));
    at_record(1);
    fill_buffer(8);
    file.rc = 2;
    EXPECT("a=b is written", 34, 0, 0, want_written(1024 + RECORD, file, 1));
    changes_nothing("a=b is closed", 16, 0, 0);
}

static void renamed_and_deleted(void)
{
    block_to_rename(OLD, SIGLA);
    EXPECT("a=b is renamed away", 23, 0, 0, memcpy(want.volume + 1, SIGLA, 11));
    block_to_rename(SIGLA, OLD);
    refuses("and not back: 45", 23, 45);
    old_file();
    block_for(OLD);
    EXPECT("a=b is deleted, and its block is free", 19, 0, 0, want.volume[0] = 0xE5, want.drive[32] = 0);
    refuses("and not made again: 45", 22, 45);
}

void typing(void)
{
    each_byte();
    blanks();
    in_order();
    read_and_written();
    renamed_and_deleted();
}
