// Each function that is served, once or more with every byte, and its refusals in the paper's order.
#include "desk.h"

#include <string.h>

static const struct entry files[] = {
    {0, 0, DRAFT, 0, 0, 128, {1, 2, 3, 4, 5, 6, 7, 8, 9, 10, 11, 12, 13, 14, 15, 16}},
    {1, 0, DRAFT, 1, 0, 2, {17}},
    {2, 3, DRAFT, 0, 0, 8, {18}},
    {4, 0, FINAL, 0, 0, 3, {19}},
};

void some_files(void)
{
    logged_in("log-in of a volume with three files: 20 free", V, 20, files, COUNT(files));
}

static void sets_user(const char *what, uint8_t user)
{
    EXPECT(what, 32, user, 0, want.drive[6] = user);
}

static void opening(void)
{
    some_files();
    block_for("D????   T?T");
    now.fcb[12] = 1;
    now.fcb[13] = 9;
    now.fcb[14] = 9;
    EXPECT("15 open by a pattern, ex 1: code 1, name and map from the entry, s1 and s2 become 0", 15, 0, 1,
           want_opened(files[1]));
    now.fcb[12] = 2;
    refuses("15 open of a group that is not there: 255", 15, 255);
    now.fcb[12] = 32;
    refuses("15 open with ex 32: 40", 15, 40);
    block_for(DRAFT);
    now.fcb[12] = 1;
    changes_nothing("16 close: code 1, nothing changes", 16, 0, 1);
    now.fcb[14] = 1;
    refuses("16 close of a group that is not there: 255", 16, 255);
    now.fcb[14] = 16;
    refuses("16 close with s2 16: 40", 16, 40);
    block_for("DRA?T   TXT");
    refuses("16 close with 3FH in the name: 39", 16, 39);
}

static void searching(void)
{
    some_files();
    refuses("18 search next with none open: 255", 18, 255);
    block_for("D??????????");
    now.fcb[12] = 63;
    EXPECT("17 search first: slot 0, its directory record, pattern and user kept", 17, 0, 0,
           want_found(1, 0, 0, "D??????????", 63));
    sets_user("32 user 3 between the two", 3);
    memset(now.fcb, 0xFF, 36);
    memset(now.buffer, 0, RECORD);
    EXPECT("18 search next looks at no control block and keeps the user of first: slot 1", 18, 0, 1,
           want_found(1, 0, 1, "D??????????", 63));
    refuses("18 no further hit: 255, the search stays as it is", 18, 255);
    block_for("NOTHING    ");
    refuses("17 with no hit: 255, the older search stays open", 17, 255);
    block_for("FINAL   TX\xBF");
    sets_user("32 user 0", 0);
    EXPECT("17 BFH is the wildcard with a top bit; slot 4 has code 0 and lies in the second record", 17, 0, 0,
           want_found(1, 0, 4, "FINAL   TX\xBF", 0));
    sets_user("32 user 3", 3);
    block_for(DRAFT);
    now.fcb[0] = 1;
    EXPECT("17 search first of user 3: slot 2, and user 3 is kept", 17, 0, 2, want_found(1, 3, 2, DRAFT, 0));
    now.fcb[0] = 2;
    refuses("17 with dr 2: 42", 17, 42);
    block_for(DRAFT);
    now.fcb[12] = 33;
    refuses("17 with ex 33: 40", 17, 40);
}

static void reading(void)
{
    some_files();
    block_for(DRAFT);
    now.fcb[32] = 127;
    EXPECT("20 sequential read of record 127: cr 128", 20, 0, 0, want_read(16 * 1024 + 7 * RECORD, files[0], 128));
    EXPECT("20 again: record 128, ex 1, cr 1", 20, 0, 0, want_read(17 * 1024, files[1], 1));
    EXPECT("20 again: record 129", 20, 0, 0, want_read(17 * 1024 + RECORD, files[1], 2));
    refuses("20 again: 1 at the end", 20, 1);
    EXPECT("36 gives the position 130", 36, 0, 0, want_random(130, 0, 0));
    now.fcb[12] = 5;
    refuses("20 in a group that has no entry: 1", 20, 1);
    now.fcb[14] = 16;
    refuses("20 with s2 16: 40", 20, 40);
    refuses("36 with s2 16: 40", 36, 40);
    now.fcb[12] = 31;
    now.fcb[14] = 15;
    now.fcb[32] = 128;
    refuses("20 at position 65,536: 6", 20, 6);
    refuses("21 at position 65,536: 6", 21, 6);
    EXPECT("36 at position 65,536: bytes 0, 0, 1", 36, 0, 0, want_random(0, 0, 1));
    refuses("33 with r2 1: 6", 33, 6);
    refuses("34 with r2 1: 6", 34, 6);
    refuses("40 with r2 1: 6", 40, 6);
    block_for("NOTHING    ");
    refuses("33 of a file that is not there: 3", 33, 3);
    refuses("34 of a file that is not there: 3", 34, 3);
    refuses("35 of a file that is not there: 255", 35, 255);
}

static void writing(void)
{
    const struct entry final = {.slot = 4, .name = FINAL, .rc = 4, .map = {19}};
    struct entry later = {.slot = 3, .name = FINAL, .ex = 1, .rc = 3, .map = {20}};
    some_files();
    block_for(FINAL);
    now.fcb[32] = 3;
    fill_buffer(9);
    EXPECT("21 sequential write of record 3: rc 4, cr 4", 21, 0, 0, want_written(19 * 1024 + 3 * RECORD, final, 4));
    at_record(1);
    fill_buffer(10);
    EXPECT("34 writes record 1 anew: rc stays 4", 34, 0, 0, want_written(19 * 1024 + RECORD, final, 1));
    at_record(130);
    EXPECT("40 writes in a new group, its new block filled with zeros: slot 3, block 20, rc 3", 40, 0, 0,
           memset(want.volume + 20 * 1024, 0, 1024), want_written(20 * 1024 + 2 * RECORD, later, 2), want_held(20));
    at_record(129);
    fill_buffer(11);
    EXPECT("40 into a block given before leaves its other records", 40, 0, 0, want_written(20 * 1024 + RECORD, later, 1));
    at_record(128);
    EXPECT("33 of a record beside them: zeros", 33, 0, 0, memset(want.buffer, 0, RECORD), want_set_to(later, 0));
    at_record(136);
    fill_buffer(12);
    later.rc = 9;
    later.map[1] = 21;
    EXPECT("34 fills no block", 34, 0, 0, want_written(21 * 1024, later, 8), want_held(21));
    now.volume[4 * ENTRY + 16] = 40;
    at_record(0);
    refuses("34 where the map place is beyond T-1: 41", 34, 41);
    refuses("33 where the map place is beyond T-1: 41", 33, 41);
    now.volume[4 * ENTRY + 9] |= 0x80;
    refuses("34 of a file with a read-only entry: 38", 34, 38);
}

// A file whose higher extent stands in the lower slot, and whose entries differ in their attributes.
static void uneven_file(void)
{
    static const struct entry uneven[] = {
        {0, 5, "UPSIDE  D\xCFW", 2, 0, 7, {9}},
        {1, 5, "UPSIDE  DOW", 0, 0, 128, {7}},
    };
    logged_in("log-in of a file whose extent 2 stands before its extent 0: 37 free", V, 37, uneven, COUNT(uneven));
    sets_user("32 user 5", 5);
    block_for("UPSIDE  DOW");
    now.fcb[0] = 1;
    EXPECT("35 its size is 263, by the larger end", 35, 0, 0, want_random(7, 1, 0));
    at_record(128 + 8);
    const struct entry between = {2, 5, "UPSIDE  D\xCFW", 1, 0, 9, {0, 1}};
    EXPECT("34 in a new group copies bytes 0 to 11 of the file's lowest entry", 34, 0, 0, want_written(1024, between, 8),
           want_held(1));
}

// Something else lays an entry into the volume.
static void lay(struct entry e)
{
    as_it_stands();
    want_entry(e);
    now = want;
}

// Volumes altered since log-in: rc above 128, and map places below D.
static void altered(void)
{
    const struct geometry two = {1024, 40, 2};
    const struct entry counted = {.rc = 128, .map = {1, 2}};
    logged_in("D 2: log-in, 38 free", two, 38, NULL, 0);
    lay(ENTRY_WITH(.name = DRAFT, .rc = 200, .map = {1, 2}));
    block_for(DRAFT);
    at_record(0);
    refuses("33 where the map place is below D: 41", 33, 41);
    refuses("34 where the map place is below D: 41", 34, 41);
    at_record(8);
    EXPECT("33 where rc is 200: the count is 128", 33, 0, 0, want_read(2048, counted, 8));
    EXPECT("35 where rc is 200: size 128", 35, 0, 0, want_random(128, 0, 0));
    at_record(9);
    EXPECT("34 where rc is 200: it stays, and the held blocks stay", 34, 0, 0, want_stored(2048 + RECORD),
           want_set_to(counted, 9));
    now.drive[32] = 0x07;
    EXPECT("19 frees block 2 and passes over block 1, which is below D", 19, 0, 0, want.volume[0] = 0xE5,
           want.drive[32] = 0x03);
    lay(ENTRY_WITH(.name = DRAFT, .rc = 8, .map = {1}));
    log_in_refused("log-in where a block number is below D: 36 with slot 0 above", two, 36, 0);
}

// The entries of slots 0 and 1 have this name; this is byte i of both.
static void want_named(const char *name)
{
    memcpy(want.volume + 1, name, 11);
    memcpy(want.volume + ENTRY + 1, name, 11);
}

static void want_both(size_t i, uint8_t byte)
{
    want.volume[i] = byte;
    want.volume[ENTRY + i] = byte;
}

static void renaming(void)
{
    some_files();
    block_to_rename(DRAFT, FINAL);
    refuses("23 rename to a name that exists: 43", 23, 43);
    block_to_rename(DRAFT, "LATE*   T?T");
    refuses("23 rename to a name with 3FH: 39", 23, 39);
    block_to_rename(DRAFT, "LATE\xCA   T\xD8T");
    EXPECT("23 rename: both entries of user 0 take the new name without top bits", 23, 0, 0, want_named("LATEJ   TXT"));
    block_for(DRAFT);
    refuses("19 delete of a name that is gone: 255", 19, 255);
    block_to_rename(DRAFT, FINAL);
    refuses("23 rename of a name that is gone: 255, before 43", 23, 255);
}

// Of the renamed file.
static void attributes(void)
{
    block_for("LATEJ   TXT");
    now.fcb[9] |= 0x80;
    now.fcb[10] |= 0x80;
    EXPECT("30 attributes go to both entries", 30, 0, 0, want_both(9, 'T' | 0x80), want_both(10, 'X' | 0x80));
    block_to_rename("LATEJ   TXT", FINAL);
    refuses("23 rename of a read-only file: 38, before 43", 23, 38);
    now.fcb[10] |= 0x80;
    EXPECT("30 takes one of them off again", 30, 0, 0, want_both(9, 'T'));
    block_for("NOTHING    ");
    refuses("30 of a file that is not there: 255", 30, 255);
    block_to_rename("LATEJ   TXT", DRAFT);
    EXPECT("23 rename keeps the entries' attribute bits", 23, 0, 0, want_named(DRAFT), want_both(10, 'X' | 0x80));
}

static void deleting_and_making(void)
{
    block_for(DRAFT);
    EXPECT("19 delete: both entries are gone, their 17 blocks are free", 19, 0, 0, want_both(0, 0xE5), want.drive[32] = 0,
           want.drive[33] = 0, want.drive[34] = 0x0C);
    block_for("NEW\xA0\xA0\xA0\xA0\xA0   ");
    EXPECT("22 make takes the lowest empty slot, and the name without top bits", 22, 0, 0, want_made(0, "NEW        "),
           memcpy(want.fcb + 1, "NEW        ", 11));
    now.fcb[12] = 1;
    refuses("22 make with ex 1: 40", 22, 40);
}

// Renames from one name to another; no case of its own.
static int renamed(const char *old, const char *new)
{
    block_to_rename(old, new);
    return call(23, 0) == 0;
}

static void by_a_third_name(void)
{
    static uint8_t direct[VOLUME_MOST], drive[64];
    const char *temporary = "DRAFT   $$$", *archived = "LESARTENBAK";
    some_files();
    now.volume[ENTRY + 10] |= 0x80;
    int good = renamed(DRAFT, archived);
    memcpy(direct, now.volume, VOLUME_MOST);
    memcpy(drive, now.drive, 64);
    some_files();
    now.volume[ENTRY + 10] |= 0x80;
    as_it_stands();
    good = good && renamed(DRAFT, temporary) && renamed(temporary, archived);
    good = good && memcmp(direct, now.volume, VOLUME_MOST) == 0 && memcmp(drive, now.drive, 64) == 0;
    verdict("23 by way of a third name: the same volume and drive as at once", good);
    good = renamed(archived, temporary) && renamed(temporary, DRAFT);
    memcpy(want.fcb, now.fcb, 36);
    verdict("23 there and back: every old byte", good && same_bytes());
}

static void users(void)
{
    some_files();
    sets_user("32 sets user 15", 15);
    changes_nothing("32 with 255 answers the user", 32, 255, 15);
    int good = 1;
    for (unsigned code = 16; code < 255; code++)
        good &= holds(32, (uint8_t)code, 44);
    verdict("32 with 16..254: 44, nothing changes", good);
}

// On the same drive.
static void protection(void)
{
    static const uint8_t changing[] = {19, 21, 22, 23, 30, 34, 40};
    EXPECT("28 protects", 28, 0, 0, want.drive[7] = 1);
    block_to_rename(DRAFT, "OTHER      ");
    as_it_stands();
    verdict("delete, make, rename, attributes and the writes answer 37 on a protected drive",
            all_hold(changing, sizeof changing, 37));
    EXPECT("13 logs in anew: user 0, not protected", 13, 0, 20u << 16, want.drive[6] = 0, want.drive[7] = 0);
}

// On the same drive, which is closed in the end.
static void other_numbers(void)
{
    static const uint8_t served[] = {13, 15, 16, 17, 18, 19, 20, 21, 22, 23, 28, 30, 32, 33, 34, 35, 36, 37, 40, 220, 221};
    int good = 1;
    as_it_stands();
    for (unsigned f = 0; f < 256; f++)
        if (memchr(served, (int)f, sizeof served) == NULL)
            good &= holds((uint8_t)f, 0, 31);
    verdict("every number that is not served answers 31, nothing changes", good);
    now.volume[4 * ENTRY + 13] = 1;
    EXPECT("37 on a volume that was altered: 36 with slot 4 above, the drive is closed", 37, 0, 36 | 4u << 16, want_closed());
    refuses("13 on a closed drive: 32", 13, 32);
}

void each_function(void)
{
    opening();
    searching();
    reading();
    writing();
    uneven_file();
    altered();
    renaming();
    attributes();
    deleting_and_making();
    by_a_third_name();
    users();
    protection();
    other_numbers();
}
