// The file calls in plain C, written from the paper as one would write them without proofs: what bench/run measures the
// proved ones beside. The drive is the same bytes, the tests stand in the same order, and every byte must come out equal.
#include "plain.h"

#include <stdbool.h>
#include <string.h>

enum { FCB = 36, RECORD = 128, RECORDS_MOST = 16, ENTRY = 32, NAME = 11, MAP_BYTES = 16, EMPTY = 0xE5, ANY = 0x3F };

// The most blocks whose numbers take one byte, and bytes of a drive and of its held bits up to so many blocks and above.
enum { NARROW = 256, DRIVE = 64, WIDE_DRIVE = 544, HELD = 32, WIDE_HELD = 512 };

// Bytes of an entry, and from 9 to 16 of a control block.
enum { USER = 0, T1 = 9, T2 = 10, EX = 12, S1 = 13, S2 = 14, RC = 15, MAP = 16 };

// Further bytes of a control block.
enum { DR = 0, NEW_NAME = 17, CR = 32, R0 = 33, R1 = 34, R2 = 35 };

// The numbers of refusal.
enum {
    ABSENT = 1,
    NO_BLOCK = 2,
    NO_FILE = 3,
    NO_GROUP = 4,
    NO_SLOT = 5,
    BEYOND = 6,
    NOT_SERVED = 31,
    CLOSED = 32,
    VOLUME_LENGTH = 33,
    FCB_LENGTH = 34,
    BUFFER_LENGTH = 35,
    BAD_SLOT = 36,
    PROTECTED = 37,
    READ_ONLY = 38,
    BAD_NAME = 39,
    BAD_POSITION = 40,
    OUTSIDE = 41,
    BAD_DR = 42,
    EXISTS = 43,
    BAD_USER = 44,
    UNTYPEABLE = 45,
    BAD_COUNT = 46,
    NO_MATCH = 255
};

// What kind of search is kept.
enum { NO_SEARCH = 0, PATTERN_SEARCH = 1, EVERY_SLOT = 2 };

// Bytes of the drive.
enum { D_USER = 6, D_PROTECTED = 7, D_SEARCH = 8, D_SEARCH_USER = 9, D_LAST = 10, D_PATTERN = 12, D_ZERO = 24, D_HELD = 32 };

// The geometry, and what follows from it.
struct geometry {
    uint32_t block, total, directory;
    uint32_t slots;
    unsigned record_shift; // a block has 1 << record_shift records
    unsigned extent_shift; // an entry has 1 << extent_shift extents
    bool wide;             // block numbers take two bytes
    uint32_t places;       // block numbers of an entry
};

// What a call works on: the drive's bytes taken apart, and what is lent.
struct work {
    struct geometry g;
    uint8_t user;
    uint8_t *drive;
    uint8_t *volume, *fcb, *buffer;
    size_t volume_bytes, fcb_bytes, buffer_bytes;
};

static bool set_geometry(struct geometry *g, uint32_t block, uint32_t total, uint32_t directory)
{
    uint32_t most;
    switch (block) {
    case 1024: g->record_shift = 3; most = 256; break;
    case 2048: g->record_shift = 4; most = 4096; break;
    case 4096: g->record_shift = 5; most = 2048; break;
    default: return false;
    }
    if (total < 2 || total > most || directory < 1 || directory > 16 || directory >= total)
        return false;
    g->wide = total > NARROW;
    g->places = g->wide ? MAP_BYTES / 2 : MAP_BYTES;
    g->extent_shift = g->record_shift - (g->wide ? 4 : 3);
    g->block = block;
    g->total = total;
    g->directory = directory;
    g->slots = directory * block / ENTRY;
    return true;
}

static uint32_t word16(const uint8_t *p)
{
    return p[0] | (uint32_t)p[1] << 8;
}

// ---- names

static bool same_name(const uint8_t *a, const uint8_t *b)
{
    for (int k = 0; k < NAME; k++)
        if ((a[k] ^ b[k]) & 0x7F)
            return false;
    return true;
}

static bool like_name(const uint8_t *name, const uint8_t *pattern)
{
    for (int k = 0; k < NAME; k++)
        if ((pattern[k] & 0x7F) != ANY && ((name[k] ^ pattern[k]) & 0x7F))
            return false;
    return true;
}

static bool good_name(const uint8_t *name, bool pattern)
{
    for (int k = 0; k < NAME; k++) {
        uint8_t c = name[k] & 0x7F;
        if (c < 0x20 || c > 0x7E || (c == ANY && !pattern))
            return false;
    }
    return (name[0] & 0x7F) != 0x20;
}

// Blanks at the end of a field alone.
static bool blanks_last(const uint8_t *field, unsigned bytes)
{
    for (unsigned k = 1; k < bytes; k++)
        if ((field[k - 1] & 0x7F) == ' ' && (field[k] & 0x7F) != ' ')
            return false;
    return true;
}

// No small letter, none of < > . , ; : = * [ ], and no blank before a later non-blank within name or within type.
static bool typeable_name(const uint8_t *name)
{
    for (unsigned k = 0; k < NAME; k++) {
        uint8_t c = name[k] & 0x7F;
        if ((c >= 'a' && c <= 'z') || memchr("<>.,;:=*[]", c, 10) != NULL)
            return false;
    }
    return blanks_last(name, 8) && blanks_last(name + 8, 3);
}

static void copy_name(uint8_t *to, const uint8_t *name)
{
    for (int k = 0; k < NAME; k++)
        to[k] = name[k] & 0x7F;
}

// ---- entries

static uint32_t extent_of(const uint8_t *e)
{
    return 32u * e[S2] + e[EX];
}

static uint32_t group_of(const struct geometry *g, const uint8_t *e)
{
    return extent_of(e) >> g->extent_shift;
}

static uint8_t count_of(const uint8_t *e, uint32_t extent)
{
    uint32_t own = extent_of(e);
    if (extent != own)
        return extent < own ? 128 : 0;
    return e[RC] < 128 ? e[RC] : 128;
}

static uint32_t place_of(const struct geometry *g, uint32_t n)
{
    return (n & ((128u << g->extent_shift) - 1)) >> g->record_shift;
}

static size_t record_at(const struct geometry *g, uint32_t block, uint32_t n)
{
    return (size_t)block * g->block + (n & ((1u << g->record_shift) - 1)) * RECORD;
}

static uint32_t block_in(const struct geometry *g, const uint8_t *e, uint32_t place)
{
    return g->wide ? word16(e + MAP + 2 * place) : e[MAP + place];
}

static void set_block(const struct geometry *g, uint8_t *e, uint32_t place, uint32_t block)
{
    if (g->wide) {
        e[MAP + 2 * place] = (uint8_t)block;
        e[MAP + 2 * place + 1] = (uint8_t)(block >> 8);
    } else {
        e[MAP + place] = (uint8_t)block;
    }
}

static bool inside(const struct geometry *g, uint32_t block)
{
    return block >= g->directory && block < g->total;
}

static uint8_t *slot_at(const struct work *w, uint32_t slot)
{
    return w->volume + (size_t)slot * ENTRY;
}

// ---- the directory: each gives the lowest slot, or the number of slots

static uint32_t find_group(const struct work *w, const uint8_t *name, uint32_t group)
{
    const uint8_t *e = w->volume;
    uint32_t slot;
    for (slot = 0; slot < w->g.slots; slot++, e += ENTRY)
        if (e[USER] == w->user && group_of(&w->g, e) == group && same_name(e + 1, name))
            break;
    return slot;
}

static uint32_t find_file(const struct work *w, const uint8_t *name)
{
    const uint8_t *e = w->volume;
    uint32_t slot;
    for (slot = 0; slot < w->g.slots; slot++, e += ENTRY)
        if (e[USER] == w->user && same_name(e + 1, name))
            break;
    return slot;
}

// By pattern, from a slot on; ex 3FH is any group.
static uint32_t find_match(const struct work *w, uint32_t from, uint8_t user, const uint8_t *pattern, uint8_t ex)
{
    const uint8_t *e = slot_at(w, from);
    uint32_t group = (uint32_t)ex >> w->g.extent_shift, slot;
    for (slot = from; slot < w->g.slots; slot++, e += ENTRY)
        if (e[USER] == user && (ex == ANY || group_of(&w->g, e) == group) && like_name(e + 1, pattern))
            break;
    return slot;
}

// ---- the drive

static bool all_zero(const uint8_t *p, size_t n)
{
    while (n > 0)
        if (p[--n] != 0)
            return false;
    return true;
}

// Takes the drive's bytes apart; false where they count as closed.
static bool take_drive(struct work *w, uint8_t *drive, size_t bytes)
{
    if (bytes != DRIVE && bytes != WIDE_DRIVE)
        return false;
    if (!set_geometry(&w->g, word16(drive), word16(drive + 2), word16(drive + 4)) || bytes != (w->g.wide ? WIDE_DRIVE : DRIVE))
        return false;
    if (drive[D_USER] > 15 || drive[D_PROTECTED] > 1 || drive[D_SEARCH] > 2 || !all_zero(drive + D_ZERO, 8))
        return false;
    if (drive[D_SEARCH] == NO_SEARCH) {
        if (!all_zero(drive + D_SEARCH_USER, D_ZERO - D_SEARCH_USER))
            return false;
    } else if (drive[D_SEARCH_USER] > 15 || word16(drive + D_LAST) >= w->g.slots) {
        return false;
    }
    if (drive[D_SEARCH] == PATTERN_SEARCH) {
        uint8_t ex = drive[D_PATTERN + NAME];
        if (!good_name(drive + D_PATTERN, true) || (ex > 31 && ex != ANY))
            return false;
    }
    w->user = drive[D_USER];
    w->drive = drive;
    return true;
}

static bool held(const uint8_t *bits, uint32_t block)
{
    return bits[block / 8] >> block % 8 & 1;
}

static void hold(uint8_t *bits, uint32_t block)
{
    bits[block / 8] |= (uint8_t)(1u << block % 8);
}

static void release(uint8_t *bits, uint32_t block)
{
    bits[block / 8] &= (uint8_t) ~(1u << block % 8);
}

// The lowest free block from b on, T where none is.
static uint32_t free_from(const struct work *w, uint32_t b)
{
    while (b < w->g.total && held(w->drive + D_HELD, b))
        b++;
    return b;
}

// The block that a place of an entry (NULL for a new one) gets: the lowest free one above the block in the nearest lower used
// place, and the lowest free one where there is none; T where none is free.
static uint32_t free_block(const struct work *w, const uint8_t *e, uint32_t place)
{
    uint32_t near = 0;
    while (e != NULL && near == 0 && place > 0)
        near = block_in(&w->g, e, --place);
    if (inside(&w->g, near)) {
        uint32_t above = free_from(w, near + 1);
        if (above < w->g.total)
            return above;
    }
    return free_from(w, w->g.directory);
}

// ---- log-in

// The slots seen so far by user, name and group: a table with open addressing, at most half full.
struct seen {
    uint16_t slot[4096]; // 1 more than the slot, 0 for none
};

static bool seen_before(struct seen *s, const struct geometry *g, const uint8_t *volume, uint32_t slot)
{
    const uint8_t *e = volume + (size_t)slot * ENTRY;
    uint32_t group = group_of(g, e);
    uint32_t hash = (e[USER] + 16 * group) * 0x9E3779B1u;
    for (int k = 1; k <= NAME; k++)
        hash = (hash ^ (e[k] & 0x7F)) * 0x01000193u;
    uint32_t at = hash >> 20;
    while (s->slot[at] != 0) {
        const uint8_t *other = volume + (size_t)(s->slot[at] - 1) * ENTRY;
        if (other[USER] == e[USER] && group_of(g, other) == group && same_name(other + 1, e + 1))
            return true;
        at = (at + 1) % 4096;
    }
    s->slot[at] = (uint16_t)(slot + 1);
    return false;
}

static bool good_entry(const uint8_t *e)
{
    if (e[USER] > 15 || e[EX] > 31 || e[S1] != 0 || e[S2] > 15 || e[RC] > 128 || !good_name(e + 1, false))
        return false;
    for (int k = 1; k <= NAME; k++)
        if (e[k] >= 128 && k != T1 && k != T2)
            return false;
    return true;
}

// Takes the entry's blocks into the held ones; false where one is outside or held already.
static bool hold_map(const struct geometry *g, const uint8_t *e, uint8_t *bits)
{
    for (uint32_t p = 0; p < g->places; p++) {
        uint32_t b = block_in(g, e, p);
        if (b == 0)
            continue;
        if (!inside(g, b) || held(bits, b))
            return false;
        hold(bits, b);
    }
    return true;
}

// The lowest bad slot, the number of slots where none is; and the held blocks.
static uint32_t inspect(const struct geometry *g, const uint8_t *volume, uint8_t *bits)
{
    struct seen seen;
    memset(&seen, 0, sizeof seen);
    for (uint32_t slot = 0; slot < g->slots; slot++) {
        const uint8_t *e = volume + (size_t)slot * ENTRY;
        if (e[USER] == EMPTY)
            continue;
        if (!good_entry(e) || !hold_map(g, e, bits) || seen_before(&seen, g, volume, slot))
            return slot;
    }
    return g->slots;
}

uint32_t plain_log_in(uint32_t block_bytes, uint32_t blocks, uint32_t directory_blocks, uint32_t placing, const uint8_t *volume,
                      size_t volume_bytes, uint8_t *drive, size_t drive_bytes)
{
    struct geometry g;
    if (drive_bytes != (blocks > NARROW ? WIDE_DRIVE : DRIVE))
        return CLOSED;
    memset(drive, 0, drive_bytes);
    if (placing != 0 || !set_geometry(&g, block_bytes, blocks, directory_blocks))
        return CLOSED;
    if (volume_bytes != (size_t)blocks * block_bytes)
        return VOLUME_LENGTH;
    uint8_t bits[WIDE_HELD];
    memset(bits, 0, g.wide ? WIDE_HELD : HELD);
    uint32_t bad = inspect(&g, volume, bits);
    if (bad < g.slots)
        return BAD_SLOT | bad << 16;
    uint32_t free = 0;
    for (uint32_t b = directory_blocks; b < blocks; b++)
        free += !held(bits, b);
    drive[0] = (uint8_t)block_bytes;
    drive[1] = (uint8_t)(block_bytes >> 8);
    drive[2] = (uint8_t)blocks;
    drive[3] = (uint8_t)(blocks >> 8);
    drive[4] = (uint8_t)directory_blocks;
    memcpy(drive + D_HELD, bits, g.wide ? WIDE_HELD : HELD);
    return free << 16;
}

// ---- the tests of what is lent, 0 where they pass

enum { VOLUME_LENT = 1, FCB_LENT = 2, BUFFER_LENT = 4 };

static uint32_t test_lent(const struct work *w, int lent)
{
    if ((lent & VOLUME_LENT) && w->volume_bytes != (size_t)w->g.total * w->g.block)
        return VOLUME_LENGTH;
    if ((lent & FCB_LENT) && w->fcb_bytes != FCB)
        return FCB_LENGTH;
    if ((lent & BUFFER_LENT) && w->buffer_bytes != RECORD)
        return BUFFER_LENGTH;
    return 0;
}

static uint32_t test_named(const struct work *w, int lent, bool pattern)
{
    uint32_t why = test_lent(w, lent);
    if (why != 0)
        return why;
    if (w->fcb[DR] > 1)
        return BAD_DR;
    return good_name(w->fcb + 1, pattern) ? 0 : BAD_NAME;
}

static bool good_position(const uint8_t *fcb)
{
    return fcb[EX] <= 31 && fcb[S2] <= 15 && fcb[CR] <= 128;
}

static uint32_t position_of(const uint8_t *fcb)
{
    return 128 * extent_of(fcb) + fcb[CR];
}

// The record of a sequential or random call.
static uint32_t test_record(const struct work *w, bool sequential, uint32_t *n)
{
    uint32_t why = test_named(w, VOLUME_LENT | FCB_LENT | BUFFER_LENT, false);
    if (why != 0)
        return why;
    if (!sequential) {
        *n = word16(w->fcb + R0);
        return w->fcb[R2] != 0 ? BEYOND : 0;
    }
    if (!good_position(w->fcb))
        return BAD_POSITION;
    *n = position_of(w->fcb);
    return *n == 65536 ? BEYOND : 0;
}

static void set_random(uint8_t *fcb, uint32_t n)
{
    fcb[R0] = (uint8_t)n;
    fcb[R1] = (uint8_t)(n >> 8);
    fcb[R2] = (uint8_t)(n >> 16);
}

static void set_to(uint8_t *fcb, const uint8_t *e, uint32_t n, bool sequential)
{
    fcb[EX] = n / 128 % 32;
    fcb[S2] = (uint8_t)(n / 128 / 32);
    fcb[RC] = count_of(e, n / 128);
    memcpy(fcb + MAP, e + MAP, MAP_BYTES);
    fcb[CR] = (uint8_t)(n % 128 + sequential);
}

// ---- the calls

static uint32_t open_file(const struct work *w)
{
    uint32_t why = test_named(w, VOLUME_LENT | FCB_LENT, true);
    if (why != 0)
        return why;
    if (w->fcb[EX] > 31)
        return BAD_POSITION;
    uint32_t slot = find_match(w, 0, w->user, w->fcb + 1, w->fcb[EX]);
    if (slot == w->g.slots)
        return NO_MATCH;
    const uint8_t *e = slot_at(w, slot);
    memcpy(w->fcb + 1, e + 1, NAME);
    w->fcb[S1] = 0;
    w->fcb[S2] = 0;
    w->fcb[RC] = count_of(e, w->fcb[EX]);
    memcpy(w->fcb + MAP, e + MAP, MAP_BYTES);
    return slot % 4;
}

static uint32_t close_file(const struct work *w)
{
    uint32_t why = test_named(w, VOLUME_LENT | FCB_LENT, false);
    if (why != 0)
        return why;
    if (w->fcb[EX] > 31 || w->fcb[S2] > 15)
        return BAD_POSITION;
    uint32_t slot = find_group(w, w->fcb + 1, group_of(&w->g, w->fcb));
    return slot == w->g.slots ? NO_MATCH : slot % 4;
}

// Shows the slot's directory record, and keeps it as the last hit.
static uint32_t show_hit(const struct work *w, uint32_t slot)
{
    memcpy(w->buffer, w->volume + (size_t)(slot / 4) * RECORD, RECORD);
    w->drive[D_LAST] = (uint8_t)slot;
    w->drive[D_LAST + 1] = (uint8_t)(slot >> 8);
    return slot % 4;
}

static uint32_t search_first(const struct work *w)
{
    uint32_t why = test_lent(w, VOLUME_LENT | FCB_LENT | BUFFER_LENT), slot = 0;
    if (why != 0)
        return why;
    bool every = w->fcb[DR] == ANY;
    if (!every) {
        if ((why = test_named(w, 0, true)) != 0)
            return why;
        if (w->fcb[EX] > 31 && w->fcb[EX] != ANY)
            return BAD_POSITION;
        slot = find_match(w, 0, w->user, w->fcb + 1, w->fcb[EX]);
        if (slot == w->g.slots)
            return NO_MATCH;
    }
    w->drive[D_SEARCH] = every ? EVERY_SLOT : PATTERN_SEARCH;
    w->drive[D_SEARCH_USER] = w->user;
    memcpy(w->drive + D_PATTERN, w->fcb + 1, NAME + 1);
    return show_hit(w, slot);
}

static uint32_t search_next(const struct work *w)
{
    uint32_t why = test_lent(w, VOLUME_LENT | BUFFER_LENT);
    if (why != 0)
        return why;
    if (w->drive[D_SEARCH] == NO_SEARCH)
        return NO_MATCH;
    uint32_t slot = word16(w->drive + D_LAST) + 1;
    if (w->drive[D_SEARCH] == PATTERN_SEARCH)
        slot = find_match(w, slot, w->drive[D_SEARCH_USER], w->drive + D_PATTERN, w->drive[D_PATTERN + NAME]);
    return slot == w->g.slots ? NO_MATCH : show_hit(w, slot);
}

static uint32_t delete_files(const struct work *w)
{
    uint32_t why = test_named(w, VOLUME_LENT | FCB_LENT, true);
    if (why != 0)
        return why;
    if (w->drive[D_PROTECTED])
        return PROTECTED;
    uint32_t first = find_match(w, 0, w->user, w->fcb + 1, ANY), slot;
    if (first == w->g.slots)
        return NO_MATCH;
    for (slot = first; slot < w->g.slots; slot = find_match(w, slot + 1, w->user, w->fcb + 1, ANY))
        if (slot_at(w, slot)[T1] & 0x80)
            return READ_ONLY;
    for (slot = first; slot < w->g.slots; slot = find_match(w, slot + 1, w->user, w->fcb + 1, ANY)) {
        uint8_t *e = slot_at(w, slot);
        for (uint32_t p = 0; p < w->g.places; p++)
            if (inside(&w->g, block_in(&w->g, e, p)))
                release(w->drive + D_HELD, block_in(&w->g, e, p));
        e[USER] = EMPTY;
    }
    return 0;
}

static uint32_t make_file(const struct work *w)
{
    uint32_t why = test_named(w, VOLUME_LENT | FCB_LENT, false);
    if (why != 0)
        return why;
    if (!typeable_name(w->fcb + 1))
        return UNTYPEABLE;
    if (w->fcb[EX] != 0)
        return BAD_POSITION;
    if (w->drive[D_PROTECTED])
        return PROTECTED;
    uint32_t empty = w->g.slots;
    const uint8_t *p = w->volume;
    for (uint32_t slot = 0; slot < w->g.slots; slot++, p += ENTRY) {
        if (p[USER] == EMPTY && empty == w->g.slots)
            empty = slot;
        if (p[USER] == w->user && same_name(p + 1, w->fcb + 1))
            return EXISTS;
    }
    if (empty == w->g.slots)
        return NO_MATCH;
    uint8_t *e = slot_at(w, empty);
    memset(e, 0, ENTRY);
    e[USER] = w->user;
    copy_name(e + 1, w->fcb + 1);
    memcpy(w->fcb + 1, e + 1, ENTRY - 1);
    return empty % 4;
}

static uint32_t rename_file(const struct work *w)
{
    uint32_t why = test_named(w, VOLUME_LENT | FCB_LENT, false);
    if (why != 0)
        return why;
    const uint8_t *old = w->fcb + 1, *new = w->fcb + NEW_NAME;
    if (!good_name(new, false))
        return BAD_NAME;
    if (!typeable_name(new))
        return UNTYPEABLE;
    if (w->drive[D_PROTECTED])
        return PROTECTED;
    uint32_t first = w->g.slots, slot;
    bool read_only = false, exists = false;
    uint8_t *e = w->volume;
    for (slot = 0; slot < w->g.slots; slot++, e += ENTRY) {
        if (e[USER] != w->user)
            continue;
        if (same_name(e + 1, old)) {
            if (first == w->g.slots)
                first = slot;
            read_only |= e[T1] >= 128;
        }
        exists |= same_name(e + 1, new);
    }
    if (first == w->g.slots)
        return NO_MATCH;
    if (read_only)
        return READ_ONLY;
    if (exists)
        return EXISTS;
    for (slot = first, e = slot_at(w, first); slot < w->g.slots; slot++, e += ENTRY)
        if (e[USER] == w->user && same_name(e + 1, old)) {
            uint8_t t1 = e[T1] & 0x80, t2 = e[T2] & 0x80;
            copy_name(e + 1, new);
            e[T1] |= t1;
            e[T2] |= t2;
        }
    return 0;
}

static uint32_t set_attributes(const struct work *w)
{
    uint32_t why = test_named(w, VOLUME_LENT | FCB_LENT, false);
    if (why != 0)
        return why;
    if (w->drive[D_PROTECTED])
        return PROTECTED;
    bool found = false;
    uint8_t *e = w->volume;
    for (uint32_t slot = 0; slot < w->g.slots; slot++, e += ENTRY)
        if (e[USER] == w->user && same_name(e + 1, w->fcb + 1)) {
            e[T1] = (e[T1] & 0x7F) | (w->fcb[T1] & 0x80);
            e[T2] = (e[T2] & 0x7F) | (w->fcb[T2] & 0x80);
            found = true;
        }
    return found ? 0 : NO_MATCH;
}

static uint32_t read_record(const struct work *w, bool sequential)
{
    uint32_t n = 0, why = test_record(w, sequential, &n);
    if (why != 0)
        return why;
    uint32_t slot = find_group(w, w->fcb + 1, n / 128 >> w->g.extent_shift);
    if (slot == w->g.slots) {
        if (find_file(w, w->fcb + 1) == w->g.slots)
            return NO_FILE;
        return sequential ? ABSENT : NO_GROUP;
    }
    const uint8_t *e = slot_at(w, slot);
    uint32_t block = block_in(&w->g, e, place_of(&w->g, n));
    if (n % 128 >= count_of(e, n / 128) || block == 0)
        return ABSENT;
    if (!inside(&w->g, block))
        return OUTSIDE;
    memcpy(w->buffer, w->volume + record_at(&w->g, block, n), RECORD);
    set_to(w->fcb, e, n, sequential);
    return 0;
}

// Lets the entry count record n.
static void grow(uint8_t *e, uint32_t n)
{
    uint32_t extent = n / 128, own = extent_of(e);
    uint8_t count = (uint8_t)(n % 128 + 1);
    if (extent > own) {
        e[EX] = extent % 32;
        e[S2] = (uint8_t)(extent / 32);
        e[RC] = count;
    } else if (extent == own && e[RC] < count) {
        e[RC] = count;
    }
}

// One pass over the directory finds the file's lowest entry, the group's entry, the lowest empty slot, and a read-only entry.
// Function 40 fills a block that it gives.
static uint32_t write_record(const struct work *w, bool sequential, bool fills)
{
    uint32_t n = 0, why = test_record(w, sequential, &n);
    if (why != 0)
        return why;
    if (w->drive[D_PROTECTED])
        return PROTECTED;
    uint32_t group = n / 128 >> w->g.extent_shift;
    uint8_t *first = NULL, *own = NULL, *empty = NULL, *e = w->volume;
    for (uint32_t slot = 0; slot < w->g.slots; slot++, e += ENTRY) {
        if (e[USER] == EMPTY && empty == NULL)
            empty = e;
        if (e[USER] != w->user || !same_name(e + 1, w->fcb + 1))
            continue;
        if (e[T1] & 0x80)
            return READ_ONLY;
        if (first == NULL)
            first = e;
        if (own == NULL && group_of(&w->g, e) == group)
            own = e;
    }
    if (first == NULL)
        return NO_FILE;
    uint32_t place = place_of(&w->g, n), block = own != NULL ? block_in(&w->g, own, place) : 0;
    bool fresh = block == 0;
    if (!fresh && !inside(&w->g, block))
        return OUTSIDE;
    if (own == NULL && empty == NULL)
        return NO_SLOT;
    if (fresh && (block = free_block(w, own, place)) == w->g.total)
        return NO_BLOCK;
    if (fresh && fills)
        memset(w->volume + record_at(&w->g, block, 0), 0, w->g.block);
    memcpy(w->volume + record_at(&w->g, block, n), w->buffer, RECORD);
    if (own == NULL) {
        own = empty;
        memcpy(own, first, EX);
        memset(own + EX, 0, ENTRY - EX);
    }
    grow(own, n);
    if (fresh) {
        set_block(&w->g, own, place, block);
        hold(w->drive + D_HELD, block);
    }
    set_to(w->fcb, own, n, sequential);
    return 0;
}

// k single calls, each with its own piece of the buffer, up to the first that is refused; how many were done is the value. It is called, and
// not in the dispatcher's own code, so that the single calls stay as short as they are without it.
__attribute__((noinline)) static uint32_t several_records(const struct work *lent, uint32_t k, bool writes)
{
    struct work pieces = *lent, *w = &pieces;
    uint32_t why = test_lent(w, VOLUME_LENT | FCB_LENT), done = 0;
    if (why != 0)
        return why;
    if (k < 1 || k > RECORDS_MOST)
        return BAD_COUNT;
    if (w->buffer_bytes != k * RECORD)
        return BUFFER_LENGTH;
    w->buffer_bytes = RECORD;
    for (; done < k; done++, w->buffer += RECORD)
        if ((why = writes ? write_record(w, true, false) : read_record(w, true)) != 0)
            break;
    return why | done << 16;
}

static uint32_t file_size(const struct work *w)
{
    uint32_t why = test_named(w, VOLUME_LENT | FCB_LENT, false);
    if (why != 0)
        return why;
    bool found = false;
    uint32_t size = 0;
    const uint8_t *e = w->volume;
    for (uint32_t slot = 0; slot < w->g.slots; slot++, e += ENTRY)
        if (e[USER] == w->user && same_name(e + 1, w->fcb + 1)) {
            uint32_t own = extent_of(e), end = 128 * own + count_of(e, own);
            if (end > size)
                size = end;
            found = true;
        }
    if (!found)
        return NO_MATCH;
    set_random(w->fcb, size);
    return 0;
}

static uint32_t set_random_record(const struct work *w)
{
    uint32_t why = test_lent(w, FCB_LENT);
    if (why != 0)
        return why;
    if (w->fcb[DR] > 1)
        return BAD_DR;
    if (!good_position(w->fcb))
        return BAD_POSITION;
    set_random(w->fcb, position_of(w->fcb));
    return 0;
}

static uint32_t user_code(const struct work *w, uint8_t code)
{
    if (code == 255)
        return w->user;
    if (code > 15)
        return BAD_USER;
    w->drive[D_USER] = code;
    return 0;
}

static uint32_t protect(const struct work *w)
{
    w->drive[D_PROTECTED] = 1;
    return 0;
}

uint32_t plain_call(uint8_t function, uint8_t parameter, uint8_t *drive, size_t drive_bytes, uint8_t *volume,
                    size_t volume_bytes, uint8_t *fcb, size_t fcb_bytes, uint8_t *buffer, size_t buffer_bytes)
{
    struct work w = {.volume = volume, .fcb = fcb, .buffer = buffer,
                     .volume_bytes = volume_bytes, .fcb_bytes = fcb_bytes, .buffer_bytes = buffer_bytes};
    if (!take_drive(&w, drive, drive_bytes))
        return CLOSED;
    switch (function) {
    case 13:
    case 37: return plain_log_in(w.g.block, w.g.total, w.g.directory, 0, volume, volume_bytes, drive, drive_bytes);
    case 15: return open_file(&w);
    case 16: return close_file(&w);
    case 17: return search_first(&w);
    case 18: return search_next(&w);
    case 19: return delete_files(&w);
    case 20: return read_record(&w, true);
    case 21: return write_record(&w, true, false);
    case 22: return make_file(&w);
    case 23: return rename_file(&w);
    case 28: return protect(&w);
    case 30: return set_attributes(&w);
    case 32: return user_code(&w, parameter);
    case 33: return read_record(&w, false);
    case 34: return write_record(&w, false, false);
    case 35: return file_size(&w);
    case 36: return set_random_record(&w);
    case 40: return write_record(&w, false, true);
    default: return function == 220 || function == 221 ? several_records(&w, parameter, function == 221) : NOT_SERVED;
    }
}
