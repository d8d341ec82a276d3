// The pieces of work that are measured, each with what goes before it; both sides do the same.
#include "jobs.h"

#include "pass.h"

#include <stdio.h>
#include <stdlib.h>
#include <string.h>

struct shelf full, work;
struct desk desk;
volatile uint64_t sink;
uint8_t job_function;
const struct taking *taking;

static void log_in_work(const struct side *side)
{
    memset(&desk, 0, sizeof desk);
    uint32_t answer =
        side->log_in(work.block, work.total, work.directory, work.placing, work.volume, work.bytes, desk.drive, drive_bytes(&work));
    if ((answer & 0xFFFF) != 0) {
        puts("the volume is refused");
        exit(1);
    }
}

void start_anew(const struct side *side)
{
    copy_shelf(&work, &full);
    log_in_work(side);
}

void pass_job(const struct side *side, unsigned times)
{
    while (times-- > 0)
        sink += replacement_pass(side, &work, &desk, 0);
}

void log_in_job(const struct side *side, unsigned times)
{
    while (times-- > 0)
        sink += side->log_in(work.block, work.total, work.directory, work.placing, work.volume, work.bytes, desk.drive, drive_bytes(&work));
}

void call_job(const struct side *side, unsigned times)
{
    while (times-- > 0)
        sink += side->call(job_function, 0, desk.drive, drive_bytes(&work), work.volume, work.bytes, desk.fcb, sizeof desk.fcb,
                           desk.buffer, sizeof desk.buffer);
}

static uint8_t *last_entry(void)
{
    return entry_in(&work, work.slots - 1);
}

// The control block of a call on record n of the last file, whose entry is in the last slot.
static void at_record(uint32_t n)
{
    memcpy(desk.fcb + 1, last_entry() + 1, NAME);
    desk.fcb[33] = (uint8_t)n;
    desk.fcb[34] = (uint8_t)(n >> 8);
}

static uint32_t last_extent(void)
{
    return 32u * last_entry()[14] + last_entry()[12];
}

// On the last record of the last file.
void start_at_end(const struct side *side)
{
    start_anew(side);
    at_record(128 * last_extent() + last_entry()[15] - 1);
}

// The sequential position of the record so many before the last of the last file.
static void start_before_end(const struct side *side, uint32_t records)
{
    start_at_end(side);
    uint32_t n = desk.fcb[33] + 256u * desk.fcb[34] - records;
    desk.fcb[12] = n / 128 % 32;
    desk.fcb[14] = (uint8_t)(n / 128 / 32);
    desk.fcb[32] = n % 128;
}

void start_at_position(const struct side *side)
{
    start_before_end(side, 0);
}

void start_at_sixteen(const struct side *side)
{
    start_before_end(side, SEVERAL - 1);
}

// Sixteen records by one call, and by sixteen calls; the position is put back each time.
void sixteen_job(const struct side *side, unsigned times)
{
    uint8_t fcb[sizeof desk.fcb];
    memcpy(fcb, desk.fcb, sizeof fcb);
    while (times-- > 0) {
        memcpy(desk.fcb, fcb, sizeof fcb);
        sink += side->call(job_function == 20 ? 220 : 221, SEVERAL, desk.drive, drive_bytes(&work), work.volume, work.bytes, desk.fcb,
                           sizeof desk.fcb, desk.pieces, sizeof desk.pieces);
    }
}

void singles_job(const struct side *side, unsigned times)
{
    uint8_t fcb[sizeof desk.fcb];
    memcpy(fcb, desk.fcb, sizeof fcb);
    while (times-- > 0) {
        memcpy(desk.fcb, fcb, sizeof fcb);
        for (size_t i = 0; i < SEVERAL; i++)
            sink += side->call(job_function, 0, desk.drive, drive_bytes(&work), work.volume, work.bytes, desk.fcb, sizeof desk.fcb,
                               desk.pieces + i * RECORD, RECORD);
    }
}

// The control block of a call on a file that isn't there.
void start_at_nothing(const struct side *side)
{
    start_anew(side);
    memcpy(desk.fcb + 1, "BAND9999TXT", NAME);
}

static uint8_t drive_before[sizeof desk.drive], entry_before[ENTRY];

void start_taking(const struct side *side)
{
    copy_shelf(&work, &full);
    uint32_t first = number_at(&work, last_entry(), 0), places = places_of(&work);
    uint32_t place = taking->place < places ? taking->place : places - 1;
    memset(last_entry() + MAP, 0, MAP_BYTES);
    for (uint32_t slot = 0; taking->alone && slot < work.slots; slot++)
        memset(entry_in(&work, slot) + MAP, 0, MAP_BYTES);
    if (taking->lower < place)
        lay_number(&work, last_entry(), taking->lower, taking->highest ? work.total - 1 : first);
    log_in_work(side);
    at_record((last_extent() / extents_of(&work) * places + place) * (work.block / RECORD));
    memcpy(drive_before, desk.drive, sizeof desk.drive);
    memcpy(entry_before, last_entry(), ENTRY);
}

// Drive and entry are put back each time, so that every write takes a block.
void taking_job(const struct side *side, unsigned times)
{
    while (times-- > 0) {
        memcpy(desk.drive, drive_before, sizeof desk.drive);
        memcpy(last_entry(), entry_before, ENTRY);
        sink += side->call(job_function, 0, desk.drive, drive_bytes(&work), work.volume, work.bytes, desk.fcb, sizeof desk.fcb,
                           desk.buffer, sizeof desk.buffer);
    }
}

// On the last file as a whole: its name, and for rename a name that no file has.
void start_at_last_file(const struct side *side)
{
    start_anew(side);
    memcpy(desk.fcb + 1, last_entry() + 1, NAME);
    memcpy(desk.fcb + 17, "NEUBANDXTXT", NAME);
}

// A file that isn't there, on a directory whose last slot alone is empty.
void start_at_new_file(const struct side *side)
{
    copy_shelf(&work, &full);
    fill_directory(&work);
    memset(last_entry(), 0xE5, ENTRY);
    log_in_work(side);
    memcpy(desk.fcb + 1, "NEUBANDXTXT", NAME);
}

// A search for the worked files; and one that is open at its first hit.
void start_at_search(const struct side *side)
{
    start_anew(side);
    memcpy(desk.fcb + 1, "BAND????TXT", NAME);
}

void start_in_search(const struct side *side)
{
    start_at_search(side);
    job_function = 17;
    call_job(side, 1);
    job_function = 18;
}
