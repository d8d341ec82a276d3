// A CMD file of twenty records is loaded: by churawel_load, and by the size and the reads that it needs through the same seam, each record
// laid into the memory.
#include "load.h"

#include "calls.h"

#include <string.h>

enum { PARAGRAPH = 16, PARAGRAPHS = (PROGRAM_RECORDS - 1) * RECORD / PARAGRAPH, CODE = 1 };

// One piece of memory from here on, all of it free.
enum { START = 64, MEMORY = 64 * 1024 };

static uint8_t memory[MEMORY], table[CHURAWEL_TABLE_BYTES];

// Record n: the header, which has one group, or a piece of the image.
static void lay_record(unsigned n)
{
    static const uint8_t header[] = {CODE, PARAGRAPHS, 0, 0, 0, PARAGRAPHS, 0, PARAGRAPHS, 0};
    memset(desk.buffer, n == 0 ? 0 : (int)n, sizeof desk.buffer);
    if (n == 0)
        memcpy(desk.buffer, header, sizeof header);
}

static void empty_memory(void)
{
    static const uint8_t piece[] = {1, 0, START, 0, (MEMORY / PARAGRAPH - START) % 256, (MEMORY / PARAGRAPH - START) / 256};
    memset(memory, 0, sizeof memory);
    memset(table, 0, sizeof table);
    memcpy(table, piece, sizeof piece);
}

// The last entry becomes the program's; its blocks are enough.
void lay_program(void)
{
    copy_shelf(&work, &full);
    memset(&desk, 0, sizeof desk);
    uint8_t *e = entry_in(&work, work.slots - 1);
    memcpy(e + 1, "COLLATE CMD", NAME);
    e[12] = 0;
    e[14] = 0;
    e[15] = PROGRAM_RECORDS;
    log_in_proved();
    memcpy(desk.fcb + 1, e + 1, NAME);
    for (unsigned n = 0; n < PROGRAM_RECORDS; n++) {
        lay_record(n);
        at(n);
        must(ask(CHURAWEL_FN_WRITE_RANDOM) == 0, "a write");
    }
    empty_memory();
}

void load_by_load(void)
{
    uint32_t answer = churawel_load(desk.drive, drive_bytes(&work), work.volume, work.bytes, desk.fcb, sizeof desk.fcb, table, sizeof table,
                                    memory, sizeof memory);
    must(CHURAWEL_NUMBER(answer) == 0 && CHURAWEL_VALUE(answer) == START, "the program");
}

void load_by_calls(void)
{
    must(ask(CHURAWEL_FN_SIZE) == 0, "the size");
    unsigned records = desk.fcb[33];
    for (unsigned n = 0; n < records; n++) {
        at(n);
        must(ask(CHURAWEL_FN_READ_RANDOM) == 0, "a read");
        if (n > 0)
            memcpy(memory + START * PARAGRAPH + (n - 1) * RECORD, desk.buffer, RECORD);
    }
}

const uint8_t *loaded(void)
{
    return memory + START * PARAGRAPH + BASE_PAGE;
}
