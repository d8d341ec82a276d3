// The stack that a call needs: docs/EMULATOR.md promises a bound, and here it is measured. Each call runs on a stack of its own
// that was painted before; what is no longer painted afterwards was used.
#define _XOPEN_SOURCE 700
#include "churawel.h"
#include "desk.h"

#include <stdio.h>
#include <string.h>
#include <ucontext.h>

enum {
    STACK_BYTES = 1 << 20,
    PROMISED = 16 * 1024,
    SHELF_PROMISED = 32 * 1024,
    COPY_PROMISED = 32 * 1024,
    PROMISED_DESK = 80 * 1024,
    PAINT = 0xA5,
    B = 4096,
    D = 16,
    SLOTS = D * B / ENTRY,
    T_MOST = 2048
};

// The largest volume of the narrow kind, and then the largest at all.
static uint32_t total;
static size_t volume_bytes, drive_bytes;
static uint8_t stack[STACK_BYTES], volume[T_MOST * B], drive[CHURAWEL_WIDE_DRIVE_BYTES], fcb[36], buffer[PIECES * RECORD];
static uint8_t second[sizeof volume];
static uint8_t mcb[CHURAWEL_MCB_BYTES], table[CHURAWEL_TABLE_BYTES], memory[1 << 16];
static ucontext_t caller, callee;
static uint8_t asked, parameter, shelf[CHURAWEL_SHELF_BYTES];

static void log_in_there(void)
{
    churawel_log_in(B, total, D, CHURAWEL_STRAIGHT, volume, volume_bytes, drive, drive_bytes);
}

static void shelf_there(void)
{
    churawel_shelf(shelf, sizeof shelf, B, total, D, CHURAWEL_STRAIGHT, volume, volume_bytes);
}

static void call_there(void)
{
    size_t bytes = asked >= 220 ? sizeof buffer : RECORD;
    churawel_call(asked, parameter, drive, drive_bytes, volume, volume_bytes, fcb, sizeof fcb, buffer, bytes);
}

static void cut_there(void)
{
    size_t bytes = asked >= 220 ? sizeof buffer : RECORD;
    churawel_cut(UINT32_MAX, asked, parameter, drive, drive_bytes, volume, volume_bytes, fcb, sizeof fcb, buffer, bytes);
}

static void fault_there(void)
{
    churawel_fault(B, total, D, CHURAWEL_STRAIGHT, volume, volume_bytes, buffer, CHURAWEL_FAULT_BYTES);
}

static void file_there(void)
{
    churawel_file(drive, drive_bytes, volume, volume_bytes, SLOTS - 1, buffer, CHURAWEL_FILE_BYTES);
}

static void copy_there(void)
{
    churawel_fresh_copy(B, total, D, CHURAWEL_STRAIGHT, volume, volume_bytes, second, volume_bytes);
}

static void replace_there(void)
{
    churawel_replace_siglum(drive, drive_bytes, volume, volume_bytes, fcb, sizeof fcb, 1, 0, 1);
}

static void manuscript_there(void)
{
    churawel_manuscript(1, buffer, sizeof buffer, buffer, sizeof buffer);
}

static void memory_there(void)
{
    churawel_memory(asked, mcb, sizeof mcb, table, sizeof table, sizeof memory);
}

static void load_there(void)
{
    churawel_load(drive, drive_bytes, volume, volume_bytes, fcb, sizeof fcb, table, sizeof table, memory, sizeof memory);
}

static void gencmd_there(void)
{
    static const char text[] = ":0300050011223392\n:01000082017C\n:00000001FF\n";
    static uint8_t out[512];
    churawel_gencmd((const uint8_t *)text, sizeof text - 1, out, sizeof out);
}

// How many bytes of a painted stack the work uses.
static size_t used_by(void (*work)(void))
{
    memset(stack, PAINT, sizeof stack);
    getcontext(&callee);
    callee.uc_stack.ss_sp = stack;
    callee.uc_stack.ss_size = sizeof stack;
    callee.uc_link = &caller;
    makecontext(&callee, work, 0);
    swapcontext(&caller, &callee);
    size_t untouched = 0;
    while (untouched < sizeof stack && stack[untouched] == PAINT)
        untouched++;
    return sizeof stack - untouched;
}

// A full directory: each slot has a file of its own, the last one a block.
static void fill_volume(void)
{
    memset(volume, 0, volume_bytes);
    for (unsigned slot = 0; slot < SLOTS; slot++) {
        char name[16];
        snprintf(name, sizeof name, "BAND%04uTXT", slot);
        memcpy(volume + slot * ENTRY + 1, name, 11);
    }
    volume[(SLOTS - 1) * ENTRY + 15] = 1;
    volume[(SLOTS - 1) * ENTRY + 16] = D;
}

// On the last file; a search is open, and rename has a new name.
static void start(void)
{
    fill_volume();
    log_in_there();
    memset(fcb, 0, sizeof fcb);
    memset(fcb + 1, '?', 11);
    asked = 17;
    call_there();
    memcpy(fcb + 1, "BAND2047TXT", 11);
    memcpy(fcb + 17, "NEUBANDXTXT", 11);
}

// The last file is a collation file: its contents, and one reading.
static void start_at_desk(void)
{
    start();
    volume[(SLOTS - 1) * ENTRY + 15] = 2;
    memcpy(volume + D * B, (const uint8_t[]){1, 0, 1, 0, 1}, 5);
}

// The last file is a CMD file of eight groups of a paragraph each, and one piece has room for them.
static void start_to_load(void)
{
    start();
    uint8_t *record = volume + D * B;
    for (unsigned group = 0; group < 8; group++) {
        record[9 * group] = (uint8_t)(group + 1);
        record[9 * group + 1] = 1;
        record[9 * group + 5] = 16;
    }
    volume[(SLOTS - 1) * ENTRY + 15] = 2;
    memset(table, 0, sizeof table);
    table[0] = 1;
    table[3] = 2;
    table[4] = 255;
}

// 53 to 58 and load; whether the load was done tells that its whole way was measured.
static void memory_stack(void)
{
    char what[96];
    size_t calls = 0;
    for (uint8_t function = 53; function <= 58; function++) {
        start_to_load();
        asked = function;
        mcb[2] = 1;
        size_t used = used_by(memory_there);
        calls = used > calls ? used : calls;
    }
    start_to_load();
    size_t loaded = used_by(load_there);
    snprintf(what, sizeof what, "and so do the memory calls, %zu bytes at most, and load, %zu", calls, loaded);
    verdict(what, calls < PROMISED && loaded < PROMISED && table[1] == 8);
}

// The most that any function uses that is called in this way; the least goes to `least`, if it is less.
static size_t most_of_each(void (*way)(void), size_t *least)
{
    static const uint8_t functions[] = {13, 15, 16, 17, 18, 19, 20, 21, 22, 23, 28, 30, 32, 33, 34, 35, 36, 37, 40, 220, 221, 99};
    size_t most = 0;
    for (size_t i = 0; i < COUNT(functions); i++) {
        start();
        asked = functions[i];
        parameter = asked >= 220 ? PIECES : 0;
        size_t used = used_by(way);
        most = used > most ? used : most;
        *least = used < *least ? used : *least;
    }
    return most;
}

static void used_on(uint32_t blocks)
{
    char what[120];
    total = blocks;
    volume_bytes = (size_t)B * total;
    drive_bytes = churawel_drive_bytes(total);
    fill_volume();
    size_t most = used_by(log_in_there);
    snprintf(what, sizeof what, "log-in of %u blocks uses less stack than is promised: %zu bytes of %d", total, most, PROMISED);
    verdict(what, most < PROMISED);
    memset(shelf, 0, sizeof shelf);
    size_t counting = used_by(shelf_there);
    snprintf(what, sizeof what, "a volume put on a shelf uses less than is promised for it: %zu bytes of %d", counting, SHELF_PROMISED);
    verdict(what, counting < SHELF_PROMISED && shelf[56] == 1);
    size_t least = most;
    most = most_of_each(call_there, &least);
    snprintf(what, sizeof what, "and so does each function: %zu bytes at most", most);
    verdict(what, most < PROMISED);
    size_t cut = most_of_each(cut_there, &least);
    snprintf(what, sizeof what, "and so does each function that is cut: %zu bytes at most", cut);
    verdict(what, cut < PROMISED);
    volume[(SLOTS - 1) * ENTRY + 15] = 129;
    size_t told = used_by(fault_there);
    start();
    size_t line = used_by(file_there);
    snprintf(what, sizeof what, "and so do a fault, %zu bytes, and a file's line, %zu", told, line);
    verdict(what, told < PROMISED && line < PROMISED);
    size_t copied = used_by(copy_there);
    snprintf(what, sizeof what, "and a fresh copy less than is promised for it: %zu bytes of %d", copied, COPY_PROMISED);
    verdict(what, most < copied && copied < COPY_PROMISED);
    start_at_desk();
    size_t replacement = used_by(replace_there), manuscript = used_by(manuscript_there);
    snprintf(what, sizeof what, "a replacement, which marks records, uses %zu bytes of %d; a manuscript's name %zu", replacement,
             PROMISED_DESK, manuscript);
    verdict(what, replacement > PROMISED && replacement < PROMISED_DESK && manuscript < PROMISED);
    memory_stack();
    size_t made = used_by(gencmd_there);
    snprintf(what, sizeof what, "and so does a hex text made a CMD file: %zu bytes", made);
    verdict(what, made < PROMISED);
    verdict("and what is measured is a call's own stack", least > 0 && least < most);
}

void stack_used(void)
{
    used_on(256);
    used_on(T_MOST);
}
