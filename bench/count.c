// The same pieces of work as in bench.c and every other call, each done once on either side between two marks of the plugin
// instructions.c; both must leave the same bytes. A line for each piece on standard output, `label work blocks slots side`, names what the
// label's count means. What a shelf costs stands beside the proved log-in, and a cut, a load and a chapter whose siglum is replaced
// beside the proved calls that they need.
#define _GNU_SOURCE
#include "churawel.h"
#include "jobs.h"
#include "load.h"
#include "plain.h"
#include "sigla.h"

#include <stdio.h>
#include <stdlib.h>
#include <string.h>
#include <sys/syscall.h>
#include <unistd.h>

enum { MARK = 77 };

static const struct {
    const char *name;
    struct side side;
} sides[] = {{"proved", {churawel_log_in, churawel_call}}, {"plain", {plain_log_in, plain_call}}};

static const struct taking takings[] = {{0, 0, 0, 0}, {1, 0, 0, 0}, {15, 0, 0, 0}, {15, 0, 1, 0}};

struct piece {
    const char *work;
    void (*before)(const struct side *);
    job *job;
    uint8_t function;
    const struct taking *taking;
};

static const struct piece pieces[] = {
    {"pass", start_anew, pass_job, 0, 0},
    {"log-in", start_anew, log_in_job, 0, 0},
    {"open", start_at_last_file, call_job, 15, 0},
    {"open-missing", start_at_nothing, call_job, 15, 0},
    {"close", start_at_last_file, call_job, 16, 0},
    {"search-first", start_at_search, call_job, 17, 0},
    {"search-next", start_in_search, call_job, 18, 0},
    {"delete", start_at_last_file, call_job, 19, 0},
    {"make", start_at_new_file, call_job, 22, 0},
    {"rename", start_at_last_file, call_job, 23, 0},
    {"attributes", start_at_last_file, call_job, 30, 0},
    {"read", start_at_end, call_job, 33, 0},
    {"write", start_at_end, call_job, 34, 0},
    {"write-first-block", start_taking, taking_job, 34, &takings[0]},
    {"write-next-block", start_taking, taking_job, 34, &takings[1]},
    {"write-block-gap", start_taking, taking_job, 34, &takings[2]},
    {"write-block-below", start_taking, taking_job, 34, &takings[3]},
    {"size", start_at_last_file, call_job, 35, 0},
    {"reset", start_anew, call_job, 13, 0},
    {"read-sequential", start_at_position, call_job, 20, 0},
    {"write-sequential", start_at_position, call_job, 21, 0},
    {"read-sixteen", start_at_sixteen, sixteen_job, 20, 0},
    {"write-sixteen", start_at_sixteen, sixteen_job, 21, 0},
    {"write-zero-fill", start_at_end, call_job, 40, 0},
    {"zero-fill-block", start_taking, taking_job, 40, &takings[1]},
    {"write-protect", start_anew, call_job, 28, 0},
    {"user", start_anew, call_job, 32, 0},
    {"set-random", start_at_position, call_job, 36, 0},
};

// Block size, blocks and directory blocks: 32, 128, 256 and 2,048 slots of 256 blocks; and the two hard disks of 8 MiB with as many
// slots as there can be.
static const uint32_t shapes[][3] = {{1024, 256, 1}, {4096, 256, 1}, {4096, 256, 2}, {4096, 256, 16}, {2048, 4096, 16}, {4096, 2048, 16}};

static long label;

static void mark(long number)
{
    syscall(SYS_getpriority, MARK, number);
}

// What was counted last: this work on this volume, done in this way.
static void note(const char *work, const char *name)
{
    printf("%ld %s %u %u %s\n", label, work, full.total, full.slots, name);
}

static void expect(int good, const char *what, const char *wrong)
{
    if (!good) {
        fprintf(stderr, "%s: %s at %u slots\n", what, wrong, full.slots);
        exit(1);
    }
}

// One piece of work on the shelf as it is.
static void count(const struct piece *piece, const struct side *side, const char *name)
{
    job_function = piece->function;
    taking = piece->taking;
    piece->before(side);
    sink = 0;
    mark(0);
    piece->job(side, 1);
    mark(++label);
    note(piece->work, name);
}

// The piece on both sides; both leave the same.
static void count_both(const struct piece *piece)
{
    static struct shelf after;
    count(piece, &sides[0].side, sides[0].name);
    struct desk lent = desk;
    uint64_t answers = sink;
    copy_shelf(&after, &work);
    count(piece, &sides[1].side, sides[1].name);
    int same = memcmp(&lent, &desk, sizeof desk) == 0 && answers == sink && memcmp(after.volume, work.volume, work.bytes) == 0;
    expect(same, piece->work, "the two sides differ");
}

// The proved calls on an eight-inch floppy, and on the straight volume of the same numbers.
static void count_floppy(void)
{
    for (size_t i = 0; i < sizeof pieces / sizeof *pieces; i++) {
        fill_shelf(&full, 1024, 243, 2);
        count(&pieces[i], &sides[0].side, "straight");
        make_floppy(&full);
        count(&pieces[i], &sides[0].side, "floppy");
    }
}

// What a volume put on a shelf costs beside its own log-in: a full directory, an empty one, and one full of long files.
static const struct {
    const char *work;
    void (*lay)(struct shelf *);
} shelved[] = {{"shelf-full", fill_directory}, {"shelf-empty", empty_directory}, {"shelf-long-files", fill_long_files}};

static void count_shelf(void)
{
    uint8_t shelf[CHURAWEL_SHELF_BYTES] = {0};
    for (size_t i = 0; i < sizeof shelved / sizeof *shelved; i++) {
        copy_shelf(&work, &full);
        shelved[i].lay(&work);
        mark(0);
        log_in_job(&sides[0].side, 1);
        mark(++label);
        note(shelved[i].work, "calls");
        mark(0);
        uint32_t answer = churawel_shelf(shelf, sizeof shelf, work.block, work.total, work.directory, work.placing, work.volume, work.bytes);
        mark(++label);
        note(shelved[i].work, "proved");
        expect(answer == 0, shelved[i].work, "the volume is refused");
    }
}

// A write cut after more stores than it has, beside the write itself; both leave the same volume.
static void count_cut(const struct piece *write)
{
    static struct shelf after;
    count(write, &sides[0].side, "calls");
    copy_shelf(&after, &work);
    write->before(&sides[0].side);
    mark(0);
    uint32_t answer = churawel_cut(UINT32_MAX, write->function, 0, desk.drive, drive_bytes(&work), work.volume, work.bytes, desk.fcb,
                                   sizeof desk.fcb, desk.buffer, sizeof desk.buffer);
    mark(++label);
    note(write->work, "proved");
    expect(CHURAWEL_NUMBER(answer) == 0 && memcmp(after.volume, work.volume, work.bytes) == 0, write->work, "the cut differs from the write");
}

// A program loaded, beside the size and the reads that it needs; both leave the same image in the memory.
static void count_load(void)
{
    static uint8_t image[LOADED_BYTES];
    lay_program();
    mark(0);
    load_by_load();
    mark(++label);
    note("load", "proved");
    memcpy(image, loaded(), sizeof image);
    lay_program();
    mark(0);
    load_by_calls();
    mark(++label);
    note("load", "calls");
    expect(memcmp(image, loaded(), sizeof image) == 0, "load", "the calls load another image");
}

// The writes that are cut, in place and with a block that is taken.
static const struct piece cut_writes[] = {
    {"cut-write", start_at_end, call_job, 34, 0},
    {"cut-write-block", start_taking, taking_job, 34, &takings[1]},
};

// What is held to no plain C: a shelf, a cut and a load.
static void count_beside_calls(void)
{
    count_shelf();
    for (size_t i = 0; i < sizeof cut_writes / sizeof *cut_writes; i++)
        count_cut(&cut_writes[i]);
    count_load();
}

// A directory full of sixteen files' entries without blocks in the worst order for a fresh disk: each file's highest extent first, and
// then the files from the last to the first, each by falling extents.
static void disorder(struct shelf *s)
{
    uint32_t groups = s->slots / 16;
    for (uint32_t slot = 0; slot < s->slots; slot++) {
        uint8_t *e = entry_in(s, slot);
        uint32_t user = slot < 16 ? slot : 15 - (slot - 16) / (groups - 1);
        uint32_t group = slot < 16 ? groups - 1 : groups - 2 - (slot - 16) % (groups - 1);
        memset(e, 0, ENTRY);
        e[0] = (uint8_t)user;
        band_name(e + 1, 1);
        e[12] = group * extents_of(s) % 32;
        e[14] = (uint8_t)(group * extents_of(s) / 32);
    }
}

// A fresh disk from one with a full directory, on either side; both must leave the same bytes.
static void count_fresh(const char *name, void (*lay)(struct shelf *))
{
    typedef uint32_t fresh_copy(uint32_t, uint32_t, uint32_t, uint32_t, const uint8_t *, size_t, uint8_t *, size_t);
    static fresh_copy *const copies[] = {churawel_fresh_copy, plain_fresh_copy};
    static uint8_t second[2][VOLUME_MOST];
    uint32_t answers[2];
    copy_shelf(&work, &full);
    lay(&work);
    for (size_t s = 0; s < 2; s++) {
        mark(0);
        answers[s] = copies[s](work.block, work.total, work.directory, work.placing, work.volume, work.bytes, second[s], work.bytes);
        mark(++label);
        note(name, sides[s].name);
    }
    int same = answers[0] % 65536 == 0 && answers[0] == answers[1] && memcmp(second[0], second[1], work.bytes) == 0;
    expect(same, name, "the two sides differ");
}

// The ways in which a chapter's siglum is replaced: by the desk, by calls that test everything first, and by calls that do not.
static const struct {
    const char *name;
    void (*replace)(void);
} ways[] = {{"desk", replace_by_desk}, {"tested", replace_by_calls}, {"once", replace_untested}};

// Where one record in so many has it, and the file's entries stand in these slots; all ways leave the same bytes.
static void chapter(const char *what, unsigned one_in, const uint32_t slots[2])
{
    static struct shelf after;
    for (size_t k = 0; k < sizeof ways / sizeof *ways; k++) {
        lay_chapter(one_in, slots);
        mark(0);
        ways[k].replace();
        mark(++label);
        note(what, ways[k].name);
        if (k == 0)
            copy_shelf(&after, &work);
        expect(memcmp(after.volume, work.volume, work.bytes) == 0, what, "desk and calls leave different bytes");
    }
}

// One record in eight and every record, each with the entries far from each other, first and last.
static void count_chapters(void)
{
    fill_shelf(&full, 4096, 256, 2);
    const uint32_t apart[] = {0, full.slots - 1}, first[] = {0, 1}, last[] = {full.slots - 2, full.slots - 1};
    chapter("one-in-eight:first-and-last", 8, apart);
    chapter("one-in-eight:first-two", 8, first);
    chapter("one-in-eight:last-two", 8, last);
    chapter("every-record:first-and-last", 1, apart);
    chapter("every-record:first-two", 1, first);
    chapter("every-record:last-two", 1, last);
}

int main(void)
{
    for (size_t k = 0; k < sizeof shapes / sizeof *shapes; k++) {
        fill_shelf(&full, shapes[k][0], shapes[k][1], shapes[k][2]);
        for (size_t i = 0; i < sizeof pieces / sizeof *pieces; i++)
            count_both(&pieces[i]);
        count_beside_calls();
        count_fresh("fresh", fill_directory);
        count_fresh("fresh-disorder", disorder);
    }
    count_floppy();
    // The volume is a floppy still.
    count_beside_calls();
    count_chapters();
    return 0;
}
