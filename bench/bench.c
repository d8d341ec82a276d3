// The benchmark: the proved calls through churawel.h beside the same work in plain C (plain.c), in tables for people.
// Times are the processor's, the median of several rounds in which both sides take turns. `bench bytes` takes no
// time, and only compares what both sides leave.
#define _POSIX_C_SOURCE 200809L
#include "churawel.h"
#include "jobs.h"
#include "pass.h"
#include "plain.h"
#include "shelf.h"

#include <stdio.h>
#include <stdlib.h>
#include <string.h>
#include <time.h>

enum { ROUNDS = 11, OURS = 0, PLAIN = 1 };

static const struct side sides[2] = {{churawel_log_in, churawel_call}, {plain_log_in, plain_call}};

static int differing;

static double seconds(void)
{
    struct timespec t;
    clock_gettime(CLOCK_PROCESS_CPUTIME_ID, &t);
    return (double)t.tv_sec + (double)t.tv_nsec / 1e9;
}

static int by_size(const void *a, const void *b)
{
    double x = *(const double *)a, y = *(const double *)b;
    return (x > y) - (x < y);
}

static double median(const double *times)
{
    double sorted[ROUNDS];
    memcpy(sorted, times, sizeof sorted);
    qsort(sorted, ROUNDS, sizeof *sorted, by_size);
    return sorted[ROUNDS / 2];
}

// A number with commas, right-aligned in so many columns.
static void print_number(double x, int columns)
{
    char digits[32], text[48];
    int n = snprintf(digits, sizeof digits, "%.0f", x), k = 0;
    for (int i = 0; i < n; i++) {
        if (i > 0 && (n - i) % 3 == 0)
            text[k++] = ',';
        text[k++] = digits[i];
    }
    text[k] = '\0';
    printf("%*s", columns, text);
}

// Both medians, and the median of the rounds' ratios.
struct measured {
    double ours, plain, ratio;
};

// Two pieces of work, each on its side, in turns.
static struct measured in_turns(const struct side *const side[2], void (*before)(const struct side *), job *const jobs[2],
                                unsigned times)
{
    double taken[2][ROUNDS], ratio[ROUNDS];
    for (int round = 0; round < ROUNDS; round++) {
        for (int turn = 0; turn < 2; turn++) {
            int who = (round + turn) % 2;
            before(side[who]);
            double start = seconds();
            jobs[who](side[who], times);
            taken[who][round] = (seconds() - start) / times;
        }
        ratio[round] = taken[0][round] / taken[1][round];
    }
    return (struct measured){median(taken[0]), median(taken[1]), median(ratio)};
}

// The same work on both sides.
static struct measured measure(void (*before)(const struct side *), job *same, unsigned times)
{
    const struct side *const both[2] = {&sides[OURS], &sides[PLAIN]};
    job *const jobs[2] = {same, same};
    return in_turns(both, before, jobs, times);
}

// ---- the tables

// Block size, blocks and directory blocks, by slots; and at last the two largest hard disks.
enum { SHAPES = 7, ALL_SHAPES = 9 };
static const uint32_t shapes[ALL_SHAPES][3] = {{1024, 256, 1}, {2048, 256, 1}, {4096, 256, 1},   {4096, 256, 2},   {4096, 256, 4},
                                               {4096, 256, 8}, {4096, 256, 16}, {2048, 4096, 16}, {4096, 2048, 16}};


static int check_pass(void)
{
    uint64_t sum[2];
    for (int who = 0; who < 2; who++) {
        start_anew(&sides[who]);
        sum[who] = replacement_pass(&sides[who], &work, &desk, 1);
    }
    if (sum[OURS] != sum[PLAIN])
        differing++;
    return sum[OURS] == sum[PLAIN];
}

static double least_calls = 1e18;

static void pass_table(void)
{
    puts("Replacement pass: 40,000 calls on a nearly full volume of 1 MiB (256 blocks of 4,096 bytes)\n");
    puts("  slots   proved, calls/s   plain C, calls/s   ratio   answers and bytes");
    for (uint32_t directory = 2; directory <= 16; directory *= 2) {
        fill_shelf(&full, 4096, 256, directory);
        int same = check_pass();
        struct measured m = measure(start_anew, pass_job, 1);
        print_number(full.slots, 7);
        print_number(PASS_CALLS / m.ours, 18);
        print_number(PASS_CALLS / m.plain, 19);
        printf("   %5.2f   %s\n", m.ratio, same ? "equal" : "DIFFERENT");
        if (PASS_CALLS / m.ours < least_calls)
            least_calls = PASS_CALLS / m.ours;
    }
}

static void hard_disk_table(void)
{
    puts("\nHard disks of 8 MiB: the replacement pass, and log-in\n");
    puts("  blocks   slots   pass, calls/s   plain C, calls/s   ratio   log-in, us   plain C, us   ratio   answers and bytes");
    for (size_t i = SHAPES; i < ALL_SHAPES; i++) {
        fill_shelf(&full, shapes[i][0], shapes[i][1], shapes[i][2]);
        int same = check_pass();
        struct measured pass = measure(start_anew, pass_job, 1), log_in = measure(start_anew, log_in_job, 65536 / full.slots);
        print_number(full.total, 8);
        print_number(full.slots, 8);
        print_number(PASS_CALLS / pass.ours, 16);
        print_number(PASS_CALLS / pass.plain, 19);
        printf("   %5.2f   %10.1f   %11.1f   %5.2f   %s\n", pass.ratio, log_in.ours * 1e6, log_in.plain * 1e6, log_in.ratio,
               same ? "equal" : "DIFFERENT");
    }
}

static void log_in_table(void)
{
    puts("\nLog-in of a full directory\n");
    puts("  slots   proved, us   plain C, us   ratio");
    for (uint32_t directory = 2; directory <= 16; directory *= 2) {
        fill_shelf(&full, 4096, 256, directory);
        fill_directory(&full);
        struct measured m = measure(start_anew, log_in_job, 65536 / full.slots);
        print_number(full.slots, 7);
        printf("   %10.1f   %11.1f", m.ours * 1e6, m.plain * 1e6);
        printf("   %5.2f\n", m.ratio);
    }
}

// One call: its time through the seam in nanoseconds, and the ratio.
static void cell(void (*before)(const struct side *), void (*job)(const struct side *, unsigned))
{
    struct measured m = measure(before, job, 2000000 / (full.slots + 100));
    print_number(m.ours * 1e9, 9);
    printf("%6.2f", m.ratio);
}

static void call_cell(void (*before)(const struct side *), uint8_t function)
{
    job_function = function;
    cell(before, call_job);
}

static void growth_table(void)
{
    puts("\nOne call as the directory grows: on a record whose entry is in the last slot; open of a file that isn't there\n");
    puts("  slots    read, ns ratio   rewrite ratio      size ratio      open ratio");
    for (size_t i = 0; i < SHAPES; i++) {
        fill_shelf(&full, shapes[i][0], shapes[i][1], shapes[i][2]);
        print_number(full.slots, 7);
        printf("  ");
        call_cell(start_at_end, 33);
        call_cell(start_at_end, 34);
        call_cell(start_at_end, 35);
        call_cell(start_at_nothing, 15);
        putchar('\n');
    }
}

// Do both sides leave the same in one such write?
static int check_taking(void)
{
    static struct shelf left;
    struct desk left_desk;
    start_taking(&sides[OURS]);
    taking_job(&sides[OURS], 1);
    copy_shelf(&left, &work);
    left_desk = desk;
    start_taking(&sides[PLAIN]);
    taking_job(&sides[PLAIN], 1);
    int same = memcmp(left.volume, work.volume, work.bytes) == 0 && memcmp(&left_desk, &desk, sizeof desk) == 0;
    if (!same)
        differing++;
    return same;
}

// For the first place; for the next; fifteen places above the used one, with a free block above, and with free ones only below;
// on the nearly full disk, and where no other file has a block.
static const struct taking takings[] = {{0, 0, 0, 0}, {1, 0, 0, 0}, {15, 0, 0, 0}, {15, 0, 1, 0},
                                        {0, 0, 0, 1}, {1, 0, 0, 1}, {15, 0, 0, 1}, {15, 0, 1, 1}};

static void taking_table(const char *where, int alone)
{
    printf("\nA write that takes a block, %s: for the first place; for the next;\n"
           "fifteen places above the used one, with a free block above; the same with free blocks only below\n\n", where);
    puts("  slots   first, ns ratio      next ratio       gap ratio     below ratio   bytes");
    for (size_t i = 0; i < SHAPES; i++) {
        int same = 1;
        fill_shelf(&full, shapes[i][0], shapes[i][1], shapes[i][2]);
        print_number(full.slots, 7);
        printf("  ");
        for (size_t k = 0; k < 4; k++) {
            taking = &takings[4 * alone + k];
            job_function = 34;
            same &= check_taking();
            cell(start_taking, taking_job);
        }
        printf("   %s\n", same ? "equal" : "DIFFERENT");
    }
}

// All that sixteen records leave is the same by both ways: drive, control block, buffer and volume.
static int check_sixteen(void)
{
    static struct shelf volume;
    struct desk left;
    start_at_sixteen(&sides[OURS]);
    for (size_t i = 0; i < sizeof desk.pieces; i++)
        desk.pieces[i] = (uint8_t)(i * 7 / RECORD + i);
    struct desk given = desk;
    sixteen_job(&sides[OURS], 1);
    left = desk;
    copy_shelf(&volume, &work);
    copy_shelf(&work, &full);
    desk = given;
    singles_job(&sides[OURS], 1);
    int same = memcmp(&left, &desk, sizeof desk) == 0 && memcmp(volume.volume, work.volume, work.bytes) == 0 && desk.fcb[32] > 0;
    differing += !same;
    return same;
}

// A pass over sixteen records by one call beside sixteen single calls, both of them the proved ones.
static void sixteen_table(void)
{
    static const struct side *const ours[2] = {&sides[OURS], &sides[OURS]};
    static job *const jobs[2] = {sixteen_job, singles_job};
    puts("\nSixteen records: one call of sixteen beside sixteen single calls (ratio: where the single calls are 1)\n");
    puts("  slots   read, one us   single us   ratio   write, one us   single us   ratio   what is left");
    for (uint32_t directory = 2; directory <= 16; directory *= 2) {
        fill_shelf(&full, 4096, 256, directory);
        print_number(full.slots, 7);
        int same = 1;
        for (uint8_t function = 20; function <= 21; function++) {
            job_function = function;
            same &= check_sixteen();
            struct measured m = in_turns(ours, start_at_sixteen, jobs, 200000 / (full.slots + 100));
            printf("   %12.1f   %9.1f   %5.2f", m.ours * 1e6, m.plain * 1e6, m.ratio);
        }
        printf("   %s\n", same ? "equal" : "DIFFERENT");
    }
}

// What both sides leave, without times.
static void compare_bytes(void)
{
    for (size_t i = 0; i < ALL_SHAPES; i++) {
        fill_shelf(&full, shapes[i][0], shapes[i][1], shapes[i][2]);
        int same = check_pass();
        for (size_t k = 0; k < sizeof takings / sizeof *takings; k++) {
            taking = &takings[k];
            job_function = 34;
            same &= check_taking();
        }
        for (uint8_t function = 20; function <= 21; function++) {
            job_function = function;
            same &= check_sixteen();
        }
        printf("%5u blocks, %5u slots: a pass of 40,000 calls, writes that take a block and sixteen records leave %s\n", full.total,
               full.slots, same ? "the same" : "DIFFERENT BYTES");
    }
}

static void all_tables(void)
{
    printf("Ratio: the time of the proved calls, where that of plain C (gcc -O2) is 1. Median of %d rounds, in turns.\n\n", ROUNDS);
    pass_table();
    log_in_table();
    hard_disk_table();
    growth_table();
    taking_table("on the nearly full disk", 0);
    taking_table("where no other file has a block", 1);
    sixteen_table();
    printf("\nAt least 90,000 calls a second in the pass: ");
    print_number(least_calls, 0);
    printf(" at worst, %s.\n", least_calls >= 90000 ? "met" : "MISSED");
}

int main(int count, char **words)
{
    if (count > 1 && strcmp(words[1], "bytes") == 0) {
        puts("This processor runs x86-64 programs under an emulator: a time would say nothing, so none is taken.");
        compare_bytes();
    } else {
        all_tables();
    }
    if (differing > 0)
        puts("FAILED: two ways differ in answers or bytes.");
    return differing > 0;
}
