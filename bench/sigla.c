// A chapter of 1,000 records whose siglum is replaced: by the desk in one call, and by reads and writes through the same seam.
#include "sigla.h"

#include "calls.h"

#include <string.h>

enum { RECORDS = 1000, CHAPTER = 5, OLD = 'A' + 256 * ' ', NEW = 'C' + 256 * ' ', DELETE = 19, MAKE = 22, READ = 33, WRITE = 34 };

static const char collation[] = "COLLATIOTXT";

// How many records of the chapter match.
static unsigned matching;

// Record n: the contents, or a reading.
static void lay_record(unsigned n, unsigned one_in)
{
    static const uint8_t contents[] = {CHAPTER, 0, 1, 0, RECORDS % 256, RECORDS / 256};
    memset(desk.buffer, n == 0 ? 0 : '.', sizeof desk.buffer);
    if (n == 0)
        memcpy(desk.buffer, contents, sizeof contents);
    else
        memcpy(desk.buffer, n % one_in == 0 ? "A " : "B ", 2);
}

static uint8_t *entry_at(uint32_t slot)
{
    return work.volume + (size_t)slot * ENTRY;
}

static void exchange(uint32_t one, uint32_t other)
{
    uint8_t entry[ENTRY];
    memcpy(entry, entry_at(one), ENTRY);
    memcpy(entry_at(one), entry_at(other), ENTRY);
    memcpy(entry_at(other), entry, ENTRY);
}

// The file's entries go to these slots.
static void place_entries(const uint32_t to[2])
{
    size_t found = 0;
    for (uint32_t slot = 0; slot < work.slots && found < 2; slot++)
        if (memcmp(entry_at(slot) + 1, collation, NAME) == 0)
            exchange(slot, to[found++]);
    must(found == 2, "a file in two entries");
}

void lay_chapter(unsigned one_in, const uint32_t slots[2])
{
    work = full;
    matching = RECORDS / one_in;
    memset(&desk, 0, sizeof desk);
    log_in_proved();
    for (unsigned file = FILES - 1; file <= FILES; file++) {
        band_name(desk.fcb + 1, file);
        must(ask(DELETE) == 0, "delete");
    }
    memcpy(desk.fcb + 1, collation, NAME);
    must(ask(MAKE) <= 3, "make");
    for (unsigned n = 0; n <= RECORDS; n++) {
        lay_record(n, one_in);
        at(n);
        must(ask(WRITE) == 0, "a write");
    }
    place_entries(slots);
    log_in_proved();
}

void replace_by_desk(void)
{
    uint32_t answer = churawel_replace_siglum(desk.drive, drive_bytes(&work), work.volume, work.bytes, desk.fcb, sizeof desk.fcb, CHAPTER, OLD, NEW);
    must(answer == matching << 16, "the replacement");
}

static void read_record(unsigned n)
{
    at(n);
    sink += ask(READ);
}

static int matches(unsigned n)
{
    read_record(n);
    return n > 0 && memcmp(desk.buffer, "A ", 2) == 0;
}

// The record that was read last is written with the new siglum.
static void rewrite(void)
{
    desk.buffer[0] = 'C';
    sink += ask(WRITE);
}

static uint8_t marks[RECORDS + 1];

static void mark_matching(void)
{
    for (unsigned n = 0; n <= RECORDS; n++)
        marks[n] = (uint8_t)matches(n);
}

void replace_by_calls(void)
{
    mark_matching();
    for (unsigned n = 0; n <= RECORDS; n++)
        if (marks[n]) {
            read_record(n);
            rewrite();
        }
}

void replace_untested(void)
{
    for (unsigned n = 0; n <= RECORDS; n++)
        if (matches(n))
            rewrite();
}
