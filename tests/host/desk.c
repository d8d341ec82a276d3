// The desk of the host test: calls through churawel.h, and a comparison of every byte afterwards.
#include "desk.h"

#include "churawel.h"

#include <stdio.h>
#include <string.h>

struct desk now;
struct desk want;
struct lengths lent;
uint32_t placing;

static int passed;
static int failed;

// How many bytes of a desk count: up to the bytes behind the volume.
static size_t span;

void fresh(struct geometry g)
{
    lent = (struct lengths){churawel_drive_bytes(g.total), (size_t)g.block * g.total, 36, RECORD};
    placing = CHURAWEL_STRAIGHT;
    span = offsetof(struct desk, volume) + lent.volume + GUARD;
    memset(&now, 0xA5, span);
    memset(now.drive, 0, lent.drive);
    for (size_t i = 0; i < lent.volume; i++)
        now.volume[i] = i < g.block * g.directory ? 0xE5 : (uint8_t)(i % 251 + i / 1024);
    block_for("NOTHING    ");
    fill_buffer(1);
}

void as_it_stands(void)
{
    memcpy(&want, &now, span);
}

// The first byte that differs, by the name of what it belongs to.
static void say_where(void)
{
    const struct {
        const char *name;
        const uint8_t *is, *should;
        size_t bytes;
    } parts[] = {
        {"the bytes before the drive", now.guard0, want.guard0, sizeof now.guard0},
        {"the drive", now.drive, want.drive, sizeof now.drive},
        {"the control block", now.fcb, want.fcb, sizeof now.fcb},
        {"the buffer", now.buffer, want.buffer, sizeof now.buffer},
        {"the volume", now.volume, want.volume, span - offsetof(struct desk, volume)},
    };
    for (size_t p = 0; p < COUNT(parts); p++)
        for (size_t i = 0; i < parts[p].bytes; i++)
            if (parts[p].is[i] != parts[p].should[i]) {
                printf(" (%s, byte %zu: %u, not %u)", parts[p].name, i, parts[p].is[i], parts[p].should[i]);
                return;
            }
}

int same_bytes(void)
{
    return memcmp(&now, &want, span) == 0;
}

// A case's line up to what is wrong with it.
static void begin_line(const char *what, int good)
{
    if (good)
        passed++;
    else
        failed++;
    printf("%s %s", good ? "ok" : "FAILED", what);
}

// The rest of the line: the first byte that differs, if one does.
static void end_line(void)
{
    if (!same_bytes())
        say_where();
    putchar('\n');
}

void verdict(const char *what, int good)
{
    begin_line(what, good);
    if (good)
        putchar('\n');
    else
        end_line();
}

int summary(void)
{
    printf("%d passed, %d failed\n", passed, failed);
    return failed;
}

static void compare(const char *what, uint32_t is, uint32_t should)
{
    begin_line(what, is == should && same_bytes());
    if (is != should)
        printf(" (answer %u with %u above, not %u with %u)", is & 0xFFFF, is >> 16, should & 0xFFFF, should >> 16);
    end_line();
}

uint32_t call(uint8_t function, uint8_t parameter)
{
    return churawel_call(function, parameter, now.drive, lent.drive, now.volume, lent.volume, now.fcb, lent.fcb, now.buffer,
                         lent.buffer);
}

void log_in(const char *what, struct geometry g, uint32_t number, uint32_t value)
{
    uint32_t is = churawel_log_in(g.block, g.total, g.directory, placing, now.volume, lent.volume, now.drive, lent.drive);
    compare(what, is, number | value << 16);
}

void log_in_refused(const char *what, struct geometry g, uint32_t number, uint32_t value)
{
    as_it_stands();
    want_closed();
    log_in(what, g, number, value);
}

// B, T and D at the drive's beginning, 16 bits each.
static void want_geometry(struct geometry g)
{
    const uint32_t numbers[] = {g.block, g.total, g.directory};
    for (size_t i = 0; i < COUNT(numbers); i++) {
        want.drive[2 * i] = (uint8_t)numbers[i];
        want.drive[2 * i + 1] = (uint8_t)(numbers[i] >> 8);
    }
}

void logged_in(const char *what, struct geometry g, uint32_t free_blocks, const struct entry *entries, size_t count)
{
    fresh(g);
    as_it_stands();
    for (size_t i = 0; i < count; i++)
        want_entry(entries[i]);
    now = want;
    want_geometry(g);
    size_t width = g.total > 256 ? 2 : 1;
    for (size_t i = 0; i < count; i++)
        for (const uint8_t *at = entries[i].map; at < entries[i].map + COUNT(entries[i].map); at += width) {
            unsigned block = width == 1 ? at[0] : at[0] + 256u * at[1];
            if (block != 0)
                want_held(block);
        }
    log_in(what, g, 0, free_blocks);
}

void answers(const char *what, uint8_t function, uint8_t parameter, uint32_t answer)
{
    compare(what, call(function, parameter), answer);
}

void changes_nothing(const char *what, uint8_t function, uint8_t parameter, uint32_t answer)
{
    as_it_stands();
    answers(what, function, parameter, answer);
}

void refuses(const char *what, uint8_t function, uint32_t number)
{
    changes_nothing(what, function, 0, number);
}

int holds(uint8_t function, uint8_t parameter, uint32_t answer)
{
    return call(function, parameter) == answer && same_bytes();
}

int all_hold(const uint8_t *functions, size_t count, uint32_t answer)
{
    int good = 1;
    for (size_t i = 0; i < count; i++)
        good &= holds(functions[i], 0, answer);
    return good;
}

void block_for(const char *name)
{
    memset(now.fcb, 0, 36);
    memcpy(now.fcb + 1, name, 11);
}

void block_to_rename(const char *name, const char *new_name)
{
    block_for(name);
    memcpy(now.fcb + 17, new_name, 11);
}

void at_record(uint32_t n)
{
    now.fcb[33] = (uint8_t)n;
    now.fcb[34] = (uint8_t)(n >> 8);
    now.fcb[35] = (uint8_t)(n >> 16);
}

void fill_buffer(uint8_t seed)
{
    for (size_t i = 0; i < RECORD; i++)
        now.buffer[i] = (uint8_t)(seed * 31 + i * 3);
}

void want_entry(struct entry e)
{
    uint8_t *slot = want.volume + e.slot * ENTRY;
    slot[0] = e.user;
    memcpy(slot + 1, e.name, 11);
    slot[12] = e.ex;
    slot[13] = 0;
    slot[14] = e.s2;
    slot[15] = e.rc;
    memcpy(slot + 16, e.map, 16);
}

void want_made(size_t slot, const char *name)
{
    want_entry(ENTRY_WITH(.slot = slot, .name = name));
}

void want_stored(size_t at)
{
    memcpy(want.volume + at, now.buffer, RECORD);
}

void want_shown(size_t at)
{
    memcpy(want.buffer, now.volume + at, RECORD);
}

void want_set_to(struct entry e, uint8_t cr)
{
    want.fcb[12] = e.ex;
    want.fcb[14] = e.s2;
    want.fcb[15] = e.rc;
    memcpy(want.fcb + 16, e.map, 16);
    want.fcb[32] = cr;
}

void want_opened(struct entry e)
{
    memcpy(want.fcb + 1, e.name, 11);
    want.fcb[13] = 0;
    want.fcb[14] = 0;
    want.fcb[15] = e.rc;
    memcpy(want.fcb + 16, e.map, 16);
}

void want_random(uint8_t r0, uint8_t r1, uint8_t r2)
{
    want.fcb[33] = r0;
    want.fcb[34] = r1;
    want.fcb[35] = r2;
}

void want_held(unsigned block)
{
    want.drive[32 + block / 8] |= (uint8_t)(1u << block % 8);
}

void want_closed(void)
{
    memset(want.drive, 0, lent.drive);
}

void want_read(size_t at, struct entry e, uint8_t cr)
{
    want_shown(at);
    want_set_to(e, cr);
}

void want_written(size_t at, struct entry e, uint8_t cr)
{
    want_stored(at);
    want_entry(e);
    want_set_to(e, cr);
}

void want_found(uint8_t search, uint8_t user, uint8_t slot, const char *pattern, uint8_t ex)
{
    want.drive[8] = search;
    want.drive[9] = user;
    want.drive[10] = slot;
    memcpy(want.drive + 12, pattern, 11);
    want.drive[23] = ex;
    want_shown(slot / 4 * RECORD);
}
