/*
 * A handler of INT 224 for two drives, A and B: what docs/EMULATOR.md tells, as a program that the tests compile, as C11 and
 * as C++, and run. An emulator brings its own registers and memory; `struct machine` stands for them here.
 */
#include "churawel.h"

#include <stdint.h>
#include <stdlib.h>
#include <string.h>

enum { DRIVES = 2, MEMORY_BYTES = 1 << 20, WILDCARD = '?' };

/* A disk in its drive: the state from call to call, as long as its number of blocks asks for (zeros to begin with), and the image. */
struct disk {
    uint8_t drive[CHURAWEL_WIDE_DRIVE_BYTES];
    size_t drive_bytes;
    uint8_t *image;
    size_t image_bytes;
    int changed; /* the image is to be written back */
};

struct machine {
    uint8_t cl, ch, dl, al, ah;
    uint16_t bx, dx, ds;
    uint16_t cs, es, ip; /* where a program is started */
    uint16_t dma_base, dma_offset; /* what the program has set by 26 and 51 */
    uint8_t memory[MEMORY_BYTES];
    uint8_t table[CHURAWEL_TABLE_BYTES]; /* the pieces of memory that programs may have, and the regions that they have */
    struct disk disk[DRIVES];
    uint8_t current;  /* the drive that 14 has chosen */
    uint8_t searched; /* the drive of the last 17 */
    uint8_t user;     /* what 32 has set; a log-in sets the drive's own to 0, so it is set again */
};

/* Copies between the program's memory and ours; an address wraps at its segment's end, and at the end of memory. */
static uint8_t *at(struct machine *m, uint16_t base, uint16_t offset)
{
    return m->memory + ((uint32_t)base * 16 + offset) % MEMORY_BYTES;
}

static void load(struct machine *m, uint16_t base, uint16_t offset, uint8_t *to, size_t n)
{
    for (size_t i = 0; i < n; i++)
        to[i] = *at(m, base, (uint16_t)(offset + i));
}

static void store(struct machine *m, uint16_t base, uint16_t offset, const uint8_t *from, size_t n)
{
    for (size_t i = 0; i < n; i++)
        *at(m, base, (uint16_t)(offset + i)) = from[i];
}

/* Puts an image into a drive: log-in's answer. One of 256,256 bytes is an eight-inch floppy: 1024, 243, 2, CHURAWEL_EIGHT_INCH. */
static uint32_t put_in(
    struct disk *d, uint8_t *image, size_t image_bytes, uint32_t block_bytes, uint32_t blocks, uint32_t directory_blocks,
    uint32_t placing)
{
    d->image = image;
    d->image_bytes = image_bytes;
    d->drive_bytes = churawel_drive_bytes(blocks);
    return churawel_log_in(block_bytes, blocks, directory_blocks, placing, image, image_bytes, d->drive, d->drive_bytes);
}

static int is_several(uint8_t function)
{
    return function == CHURAWEL_FN_READ_SEVERAL || function == CHURAWEL_FN_WRITE_SEVERAL;
}

/* One call on one disk, with copies of what the program lends, since these may overlap in its memory. */
static uint32_t call_disk(struct machine *m, struct disk *d, uint8_t function, uint8_t parameter, uint8_t *fcb)
{
    uint8_t buffer[CHURAWEL_RECORDS_MOST * CHURAWEL_BUFFER_BYTES];
    size_t records = is_several(function) && parameter <= CHURAWEL_RECORDS_MOST ? parameter : 1;
    size_t bytes = records * CHURAWEL_BUFFER_BYTES;

    load(m, m->dma_base, m->dma_offset, buffer, bytes);
    uint32_t answer = churawel_call(
        function, parameter, d->drive, d->drive_bytes, d->image, d->image_bytes, fcb, CHURAWEL_FCB_BYTES, buffer, bytes);
    switch (function) {
    case CHURAWEL_FN_SEARCH_FIRST:
    case CHURAWEL_FN_SEARCH_NEXT:
    case CHURAWEL_FN_READ_SEQUENTIAL:
    case CHURAWEL_FN_READ_RANDOM:
    case CHURAWEL_FN_READ_SEVERAL:
        store(m, m->dma_base, m->dma_offset, buffer, bytes);
        break;
    case CHURAWEL_FN_DELETE:
    case CHURAWEL_FN_WRITE_SEQUENTIAL:
    case CHURAWEL_FN_MAKE:
    case CHURAWEL_FN_RENAME:
    case CHURAWEL_FN_ATTRIBUTES:
    case CHURAWEL_FN_WRITE_RANDOM:
    case CHURAWEL_FN_WRITE_ZERO_FILL:
    case CHURAWEL_FN_WRITE_SEVERAL:
        d->changed |= churawel_succeeded(function, answer);
        break;
    default:
        break;
    }
    return answer;
}

/*
 * The drive that a control block means: dr 0, and the dr 3FH of a search, is the current one; 1 is A, 2 is B. DRIVES where
 * there is none.
 */
static uint8_t drive_of(const struct machine *m, uint8_t dr)
{
    if (dr == 0 || dr == WILDCARD)
        return m->current;
    return dr <= DRIVES ? (uint8_t)(dr - 1) : (uint8_t)DRIVES;
}

/* A call with a control block: a copy goes to the drive that its dr means, with dr 0 there, and comes back with the program's. */
static void call_with_fcb(struct machine *m, uint8_t function, uint8_t parameter)
{
    uint8_t fcb[CHURAWEL_FCB_BYTES];
    load(m, m->ds, m->dx, fcb, sizeof fcb);
    uint8_t dr = fcb[0], which = drive_of(m, dr);
    if (which == DRIVES) {
        m->al = 255; /* no such drive */
        return;
    }
    if (dr != WILDCARD)
        fcb[0] = 0;
    uint32_t answer = call_disk(m, &m->disk[which], function, parameter, fcb);
    fcb[0] = dr;
    store(m, m->ds, m->dx, fcb, sizeof fcb);
    if (function == CHURAWEL_FN_SEARCH_FIRST)
        m->searched = which;
    m->al = churawel_al(function, answer);
    m->ah = is_several(function) ? (uint8_t)CHURAWEL_VALUE(answer) : 0;
}

/*
 * A call without a control block on each drive whose bit is set, A lowest. AL is what the lowest of them answers, or 255 where
 * one of them refuses.
 */
static void call_drives(struct machine *m, uint16_t drives, uint8_t function, uint8_t parameter)
{
    uint8_t none[CHURAWEL_FCB_BYTES] = {0};
    int refused = 0;
    m->al = 0;
    for (int i = DRIVES - 1; i >= 0; i--) {
        if (drives >> i & 1) {
            uint32_t answer = call_disk(m, &m->disk[i], function, parameter, none);
            refused |= !churawel_succeeded(function, answer);
            m->al = churawel_al(function, answer);
        }
    }
    if (refused)
        m->al = 255;
}

/* Log-in anew: what the program has set as its user is set again where the log-in was accepted. */
static void reset_drives(struct machine *m, uint16_t drives, uint8_t function)
{
    call_drives(m, drives, function, 0);
    uint8_t al = m->al;
    call_drives(m, drives, CHURAWEL_FN_USER, m->user);
    m->al = al;
}

/* 53 to 58: the memory control block is five bytes at DS:DX; 58 has none. AL is 0, or FFH where the call is refused. */
static void call_memory(struct machine *m)
{
    uint8_t mcb[CHURAWEL_MCB_BYTES];
    load(m, m->ds, m->dx, mcb, sizeof mcb);
    uint32_t answer = churawel_memory(m->cl, mcb, sizeof mcb, m->table, sizeof m->table, sizeof m->memory);
    if (m->cl != CHURAWEL_FN_FREE_ALL_MEM)
        store(m, m->ds, m->dx, mcb, sizeof mcb);
    m->al = CHURAWEL_NUMBER(answer) == 0 ? 0 : 255;
}

/* What 59 answers, in AX and in BX. */
static void answer_in_ax_and_bx(struct machine *m, uint16_t answer)
{
    m->al = (uint8_t)answer;
    m->ah = (uint8_t)(answer >> 8);
    m->bx = answer;
}

/* 59: the file that the control block at DS:DX names. AX and BX are the paragraph of its base page, or FFFFH where it is refused. */
static void load_program(struct machine *m)
{
    uint8_t fcb[CHURAWEL_FCB_BYTES];
    load(m, m->ds, m->dx, fcb, sizeof fcb);
    uint8_t which = drive_of(m, fcb[0]);
    answer_in_ax_and_bx(m, 0xFFFF);
    if (which == DRIVES || fcb[0] == WILDCARD)
        return;
    fcb[0] = 0;
    const struct disk *d = &m->disk[which];
    uint32_t answer = churawel_load(
        d->drive, d->drive_bytes, d->image, d->image_bytes, fcb, sizeof fcb, m->table, sizeof m->table, m->memory, sizeof m->memory);
    if (CHURAWEL_NUMBER(answer) == 0)
        answer_in_ax_and_bx(m, (uint16_t)CHURAWEL_VALUE(answer));
}

/* A word of the base page that begins at this paragraph. */
static uint16_t page_word(struct machine *m, uint16_t page, uint16_t offset)
{
    return (uint16_t)(*at(m, page, offset) | *at(m, page, (uint16_t)(offset + 1)) << 8);
}

/*
 * Starts the program of this base page, as the command processor does (000, 3.4 to 3.6, and 59): CS is BC; DS is the base page; ES is BE
 * where there is an extra group, else DS; IP is 100H, behind the base page, where that is in the code group, else 0. SS and SP stay where
 * they are, in the caller's own stack, also where there is a stack group; the program is entered by a far call. The DMA address is the base
 * page's 80H.
 */
void start_program(struct machine *m, uint16_t page)
{
    enum { BC = 3, LE = 12, BE = 15, PAGE_BYTES = 0x100 };
    int extra = page_word(m, page, LE) != 0 || *at(m, page, LE + 2) != 0;
    m->cs = page_word(m, page, BC);
    m->ds = page;
    m->es = extra ? page_word(m, page, BE) : page;
    m->ip = m->cs == page ? PAGE_BYTES : 0;
    m->dma_base = page;
    m->dma_offset = 0x80;
}

/* INT 224 for the numbers that Churawel serves; the emulator has taken its own functions (consoles, 14, 25, 26, 51 ..) before. */
void file_call(struct machine *m)
{
    enum { ALL = (1 << DRIVES) - 1 };
    switch (m->cl) {
    case CHURAWEL_FN_RESET: /* every drive is logged in anew; A is chosen */
        reset_drives(m, ALL, m->cl);
        m->current = 0;
        break;
    case CHURAWEL_FN_RESET_DRIVE: /* the drives whose bits are set in DX */
        reset_drives(m, m->dx & ALL, m->cl);
        break;
    case CHURAWEL_FN_USER: /* one user for all drives */
        call_drives(m, ALL, m->cl, m->dl);
        if (m->dl < 16)
            m->user = m->dl;
        break;
    case CHURAWEL_FN_WRITE_PROTECT:
        call_drives(m, (uint16_t)(1u << m->current), m->cl, 0);
        break;
    case CHURAWEL_FN_SEARCH_NEXT: /* goes on where the last 17 began */
        call_drives(m, (uint16_t)(1u << m->searched), m->cl, 0);
        break;
    case CHURAWEL_FN_GET_MAX_MEM:
    case CHURAWEL_FN_GET_ABS_MAX:
    case CHURAWEL_FN_ALLOC_MEM:
    case CHURAWEL_FN_ALLOC_ABS_MEM:
    case CHURAWEL_FN_FREE_MEM:
    case CHURAWEL_FN_FREE_ALL_MEM:
        call_memory(m);
        break;
    case CHURAWEL_FN_PROGRAM_LOAD:
        load_program(m);
        break;
    default: /* DL is the low byte of the control block's offset in DX, so 220 and 221 have their number of records in CH */
        call_with_fcb(m, m->cl, is_several(m->cl) ? m->ch : 0);
        break;
    }
}
