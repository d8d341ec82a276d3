// Closed and malformed drives: 32 whatever the function, and no lent byte changes.
#include "desk.h"

#include <stdio.h>
#include <string.h>

#define KEPT "KE?T    TXT"

// A volume with one file, logged in with these bytes of drive: no search open, a pattern's, or one of dr 3FH.
static void opened(unsigned search)
{
    fresh(V);
    memcpy(now.volume, "\0KEPT    TXT\0\0\0\1\1\0\0\0\0\0\0\0\0\0\0\0\0\0\0\0", ENTRY);
    memcpy(now.drive, "\0\4\50\0\1\0", 6);
    now.drive[32] = 2;
    now.drive[8] = (uint8_t)search;
    if (search != 0) {
        now.drive[9] = 15;
        now.drive[10] = 31;
        memcpy(now.drive + 12, KEPT, 11);
        now.drive[23] = 63;
    }
    block_for("KEPT    TXT");
}

// Does every number answer 32, and has nothing changed after all 256?
static int closed(void)
{
    int good = 1;
    as_it_stands();
    for (unsigned f = 0; f < 256; f++)
        good &= call((uint8_t)f, 255) == 32;
    return good && same_bytes();
}

// The drive that the cases begin from is open, so that a single byte closes it.
static void begins_open(void)
{
    for (unsigned search = 0; search <= 2; search++) {
        char what[80];
        opened(search);
        snprintf(what, sizeof what, "a drive whose byte 8 is %u is open: 32 answers user 0", search);
        changes_nothing(what, 32, 255, 0);
    }
    opened(0);
    EXPECT("and a random read is done", 33, 0, 0, want_read(1024, ENTRY_WITH(.rc = 1, .map = {1}), 0));
    opened(0);
    now.drive[7] = 1;
    changes_nothing("a drive whose byte 7 is 1 is open", 32, 255, 0);
    opened(2);
    memset(now.drive + 12, 0xFF, 12);
    changes_nothing("a search of dr 3FH is kept with any pattern", 32, 255, 0);
    opened(0);
    memset(now.drive + 32, 0xFF, 32);
    changes_nothing("held blocks never close a drive", 32, 255, 0);
}

static void closed_value(void)
{
    opened(0);
    memset(now.drive, 0, 64);
    verdict("64 zero bytes are closed: 32 by every number, nothing changed", closed());
}

// Up to 128 bytes, and around the length of a drive of more than 256 blocks.
static void lengths(void)
{
    for (size_t bytes = 0; bytes <= DRIVE_MOST; bytes = bytes == 128 ? 542 : bytes + 1) {
        char what[100];
        if (bytes == 64)
            continue;
        opened(0);
        memset(now.drive + 64, 0, DRIVE_MOST - 64);
        lent.drive = bytes;
        snprintf(what, sizeof what, "a drive of %zu bytes is closed: 32 by every number, nothing changed", bytes);
        verdict(what, closed());
        snprintf(what, sizeof what, "log-in with a drive of %zu bytes: 32, nothing changed", bytes);
        log_in(what, V, 32, 0);
    }
}

// Byte `at` of a drive with this kept search is closed by every value for which `outside` says so.
static void place(unsigned search, unsigned at, int (*outside)(unsigned), const char *why)
{
    char what[120];
    int good = 1, tried = 0;
    opened(search);
    for (unsigned byte = 0; byte < 256; byte++)
        if (outside(byte)) {
            now.drive[at] = (uint8_t)byte;
            good &= closed();
            tried++;
        }
    snprintf(what, sizeof what, "drive byte %u (%s): each of %d other values closes it, 32, nothing changed", at, why, tried);
    verdict(what, good && tried > 0);
}

static int not_zero(unsigned byte)
{
    return byte != 0;
}

static int not_flag(unsigned byte)
{
    return byte > 1;
}

static int not_search(unsigned byte)
{
    return byte > 2;
}

static int not_user(unsigned byte)
{
    return byte > 15;
}

// B is 0400H, so its high byte may also be 8 or 10H.
static int not_block(unsigned byte)
{
    return byte != 4 && byte != 8 && byte != 16;
}

// T from 2 to 255 with a high byte of 0, and D 1. A higher one asks for a longer drive.
static int not_total(unsigned byte)
{
    return byte < 2;
}

static int not_directory(unsigned byte)
{
    return byte < 1 || byte > 16;
}

// The last hit is one of 32 slots.
static int not_slot(unsigned byte)
{
    return byte > 31;
}

// Without its top bit a pattern's byte is 20H..7EH, 3FH allowed; the first is not 20H.
static int not_name(unsigned byte)
{
    return byte % 128 < 0x20 || byte % 128 > 0x7E;
}

static int not_first(unsigned byte)
{
    return not_name(byte) || byte % 128 == 0x20;
}

static int not_ex(unsigned byte)
{
    return byte > 31 && byte != 63;
}

static void places(void)
{
    place(0, 0, not_zero, "low byte of B");
    place(0, 1, not_block, "high byte of B");
    place(0, 2, not_total, "low byte of T");
    place(0, 3, not_zero, "high byte of T");
    place(0, 4, not_directory, "low byte of D");
    place(0, 5, not_zero, "high byte of D");
    place(0, 6, not_user, "user");
    place(0, 7, not_flag, "protected");
    place(0, 8, not_search, "search");
    for (unsigned at = 9; at < 24; at++)
        place(0, at, not_zero, "zero where no search is open");
    for (unsigned search = 0; search <= 2; search++)
        for (unsigned at = 24; at < 32; at++)
            place(search, at, not_zero, "zero");
    for (unsigned search = 1; search <= 2; search++) {
        place(search, 9, not_user, "the search's user");
        place(search, 10, not_slot, "its last slot, low byte");
        place(search, 11, not_zero, "its last slot, high byte");
    }
    place(1, 12, not_first, "the pattern's first byte");
    for (unsigned at = 13; at < 23; at++)
        place(1, at, not_name, "a byte of the pattern");
    place(1, 23, not_ex, "the pattern's ex");
}

void malformed_drives(void)
{
    begins_open();
    closed_value();
    lengths();
    places();
}
