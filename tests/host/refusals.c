// What is lent: lengths that are refused, lengths that don't matter; and the refusals of log-in.
#include "desk.h"

#include <stdio.h>
#include <string.h>

// The lengths: 33, 34, 35 as far as lent, each before the next.
static void lengths(void)
{
    static const uint8_t volume[] = {15, 16, 17, 18, 19, 20, 21, 22, 23, 30, 33, 34, 35, 40, 220, 221};
    static const uint8_t block[] = {15, 16, 17, 19, 20, 21, 22, 23, 30, 33, 34, 35, 36, 40, 220, 221};
    static const uint8_t buffer[] = {17, 18, 20, 21, 33, 34, 40};
    some_files();
    block_for(DRAFT);
    now.fcb[0] = 9;
    as_it_stands();
    lent.buffer = 127;
    int good = all_hold(buffer, sizeof buffer, 35);
    lent.buffer = 129;
    good &= all_hold(buffer, sizeof buffer, 35);
    verdict("35 for a buffer of 127 or 129 bytes, before 42", good);
    lent.fcb = 35;
    good = all_hold(block, sizeof block, 34);
    lent.fcb = 37;
    good &= all_hold(block, sizeof block, 34);
    verdict("34 for a control block of 35 or 37 bytes, before 35", good);
    lent.volume -= 1;
    good = all_hold(volume, sizeof volume, 33);
    lent.volume += 2;
    good &= all_hold(volume, sizeof volume, 33);
    verdict("33 for a volume one byte short or long, before 34", good);
    EXPECT("13 with a volume of another length: 33, and the drive is closed", 13, 0, 33, want_closed());
}

// What a function doesn't use may have any length, here 0.
static void not_lent(void)
{
    static const uint8_t no_buffer[] = {15, 16, 19, 23, 30, 35};
    some_files();
    block_to_rename("NOTHING    ", "OTHER      ");
    as_it_stands();
    lent.buffer = 0;
    verdict("15, 16, 19, 23, 30 and 35 look at no buffer", all_hold(no_buffer, sizeof no_buffer, 255));
    lent.fcb = 0;
    verdict("13 and 37 look at no control block and no buffer", holds(13, 0, 20u << 16) && holds(37, 0, 20u << 16));
    lent.buffer = RECORD;
    verdict("18 looks at no control block", holds(18, 0, 255));
    lent.volume = lent.buffer = 0;
    verdict("32 looks at nothing that is lent", holds(32, 255, 0));
    EXPECT("28 looks at nothing that is lent", 28, 0, 0, want.drive[7] = 1);
    lent.fcb = 36;
    EXPECT("36 looks at no volume and no buffer", 36, 0, 0, want_random(0, 0, 0));
}

// Log-in's refusals: 32 and 33, and the closed value in the drive.
static void outside_the_rules(void)
{
    // The last two are within the rules if only 16 bits of each number are looked at.
    static const struct geometry outside[] = {
        {0, 40, 1},    {512, 40, 1}, {1023, 40, 1},  {8192, 40, 1},  {1024, 0, 1},   {1024, 1, 1},
        {1024, 40, 0}, {1024, 2, 2}, {1024, 16, 16}, {1024, 40, 17}, {66560, 40, 1}, {1024, 40, 65537},
    };
    for (size_t i = 0; i < COUNT(outside); i++) {
        char what[100];
        struct geometry g = outside[i];
        some_files();
        snprintf(what, sizeof what, "log-in with B %u, T %u, D %u: 32, the drive is closed", g.block, g.total, g.directory);
        log_in_refused(what, g, 32, 0);
    }
    some_files();
    lent.volume++;
    log_in_refused("log-in with a volume one byte long: 33, the drive is closed", V, 33, 0);
}

// And 36, by one byte of an entry.
static void bad_slots(void)
{
    static const struct {
        const char *what;
        uint8_t at, byte;
    } bad[] = {
        {"slot 4 has user 16: 36 with 4 above", 0, 16},
        {"slot 4 has a name that begins with a blank: 36 with 4 above", 1, 0x20},
        {"slot 4 has 1FH in its name: 36 with 4 above", 4, 0x1F},
        {"slot 4 has 7FH in its name: 36 with 4 above", 4, 0x7F},
        {"slot 4 has 3FH in its name: 36 with 4 above", 4, 0x3F},
        {"slot 4 has a top bit on byte 8: 36 with 4 above", 8, 0xA0},
        {"slot 4 has a top bit on byte 11: 36 with 4 above", 11, 0xD4},
        {"slot 4 has ex 32: 36 with 4 above", 12, 32},
        {"slot 4 has s1 1: 36 with 4 above", 13, 1},
        {"slot 4 has s2 16: 36 with 4 above", 14, 16},
        {"slot 4 has rc 129: 36 with 4 above", 15, 129},
        {"slot 4 has a block number beyond T-1: 36 with 4 above", 31, 40},
        {"slot 4 has a block twice: 36 with 4 above", 31, 19},
        {"slot 4 has a lower slot's block: 36 with 4 above", 31, 18},
    };
    for (size_t i = 0; i < COUNT(bad); i++) {
        some_files();
        now.volume[4 * ENTRY + bad[i].at] = bad[i].byte;
        log_in_refused(bad[i].what, V, 36, 4);
    }
    some_files();
    memcpy(now.volume + 4 * ENTRY + 1, DRAFT, 11);
    log_in_refused("the same user, name and group as in a lower slot: 36 with slot 4 above", V, 36, 4);
}

void lent_and_log_in(void)
{
    lengths();
    not_lent();
    outside_the_rules();
    bad_slots();
}
