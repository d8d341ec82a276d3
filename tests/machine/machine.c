/*
 * A machine whose processor others wrote (the Unicorn engine) and whose INT 224 is a handler after docs/EMULATOR.md: it loads a
 * program from the image by function 59, starts it from its base page, and serves it until it ends.
 *
 *   machine IMAGE B T D PLACING OUT STORES PROGRAM [TAIL]
 *
 * IMAGE has the geometry B T D and the placing; the image as the program leaves it goes to OUT. STORES is `all`, or the number of
 * stores after which the machine is gone. What the program prints goes to standard output, how many calls it made to standard error.
 */
#include "churawel.h"

#include <unicorn/unicorn.h>

#include <stdint.h>
#include <stdio.h>
#include <stdlib.h>
#include <string.h>

enum {
    MEMORY_BYTES = 1 << 20,
    PARAGRAPH = 16,
    STACK_BASE = 0x40, /* the command processor's own stack, below the memory that programs get */
    STACK_BYTES = 96,
    RETURN_BASE = 0x60, /* where a program returns to that ends by a far return */
    FREE_FROM = 0x100,
    FREE_TO = 0xA000,
    BASE_FCB = 0x5C, /* in the base page */
    BASE_TAIL = 0x80,
    BASE_CODE = 3,   /* where the code group begins, its paragraph */
    LAST_EXTRA = 12, /* the extra group's last byte, zeros where there is none */
    BASE_EXTRA = 15,
    BASE_BYTES = 0x100,
    NAME_BYTES = 8,
    TYPE_BYTES = 3,
    TEXT_END = '$',
    SYSTEM = 224,
};

/* what the emulator serves by itself */
enum { END_PROGRAM = 0, PUT_CHARACTER = 2, PUT_TEXT = 9, SET_DMA = 26, SET_DMA_BASE = 51 };

static uint8_t memory[MEMORY_BYTES];
static uint8_t *image, *spare;
static size_t image_bytes;
static uint8_t drive[CHURAWEL_WIDE_DRIVE_BYTES], drive_spare[CHURAWEL_WIDE_DRIVE_BYTES];
static size_t drive_bytes;
static uint8_t table[CHURAWEL_TABLE_BYTES];
static uint16_t dma_base, dma_offset;
static uint32_t stores_left = UINT32_MAX; /* UINT32_MAX: the machine is not closed halfway */
static int closed_halfway;
static long calls;

static void fail(const char *what, unsigned long number)
{
    fprintf(stderr, "machine: %s %lu\n", what, number);
    exit(1);
}

static uint8_t *at(uint16_t base, uint16_t offset)
{
    return memory + ((uint32_t)base * PARAGRAPH + offset) % MEMORY_BYTES;
}

static void take(uint16_t base, uint16_t offset, uint8_t *to, size_t n)
{
    for (size_t i = 0; i < n; i++)
        to[i] = *at(base, (uint16_t)(offset + i));
}

static void lay(uint16_t base, uint16_t offset, const uint8_t *from, size_t n)
{
    for (size_t i = 0; i < n; i++)
        *at(base, (uint16_t)(offset + i)) = from[i];
}

static uint16_t word_at(uint16_t base, uint16_t offset)
{
    return (uint16_t)(*at(base, offset) | *at(base, (uint16_t)(offset + 1)) << 8);
}

static int is_several(uint8_t function)
{
    return function == CHURAWEL_FN_READ_SEVERAL || function == CHURAWEL_FN_WRITE_SEVERAL;
}

/* Is the machine gone in this call? Then the image is what the call's first stores leave, and no more is done. */
static int goes_down(uint8_t function, uint8_t parameter, const uint8_t *fcb, const uint8_t *buffer, size_t buffer_bytes)
{
    if (stores_left == UINT32_MAX)
        return 0;
    memcpy(spare, image, image_bytes);
    memcpy(drive_spare, drive, drive_bytes);
    uint32_t answer = churawel_cut(
        stores_left, function, parameter, drive_spare, drive_bytes, spare, image_bytes, fcb, CHURAWEL_FCB_BYTES, buffer, buffer_bytes);
    uint32_t made = CHURAWEL_VALUE(answer);
    if (made < stores_left) {
        stores_left -= made;
        return 0;
    }
    memcpy(image, spare, image_bytes);
    return 1;
}

/* A file call: copies of what the program lends go to the drive and come back, the control block last. */
static uint8_t file_call(uc_engine *uc, uint8_t function, uint8_t parameter, uint16_t ds, uint16_t dx, uint8_t *ah)
{
    uint8_t fcb[CHURAWEL_FCB_BYTES], buffer[CHURAWEL_RECORDS_MOST * CHURAWEL_BUFFER_BYTES];
    size_t records = is_several(function) && parameter <= CHURAWEL_RECORDS_MOST ? parameter : 1;
    size_t bytes = records * CHURAWEL_BUFFER_BYTES;
    take(ds, dx, fcb, sizeof fcb);
    take(dma_base, dma_offset, buffer, bytes);
    if (goes_down(function, parameter, fcb, buffer, bytes)) {
        closed_halfway = 1;
        uc_emu_stop(uc);
        return 0;
    }
    uint32_t answer = churawel_call(
        function, parameter, drive, drive_bytes, image, image_bytes, fcb, CHURAWEL_FCB_BYTES, buffer, bytes);
    lay(dma_base, dma_offset, buffer, bytes);
    if (function != CHURAWEL_FN_SEARCH_NEXT && function != CHURAWEL_FN_USER && function != CHURAWEL_FN_RESET)
        lay(ds, dx, fcb, sizeof fcb);
    *ah = is_several(function) ? (uint8_t)CHURAWEL_VALUE(answer) : 0;
    return churawel_al(function, answer);
}

static uint8_t memory_call(uint8_t function, uint16_t ds, uint16_t dx)
{
    uint8_t mcb[CHURAWEL_MCB_BYTES];
    take(ds, dx, mcb, sizeof mcb);
    uint32_t answer = churawel_memory(function, mcb, sizeof mcb, table, sizeof table, MEMORY_BYTES);
    if (function != CHURAWEL_FN_FREE_ALL_MEM)
        lay(ds, dx, mcb, sizeof mcb);
    return answer == 0 ? 0 : 255;
}

/* Loads the file that the control block names, by 59. */
static uint32_t load_file(const uint8_t *fcb)
{
    return churawel_load(
        drive, drive_bytes, image, image_bytes, fcb, CHURAWEL_FCB_BYTES, table, sizeof table, memory, sizeof memory);
}

/* 59 for a program that loads another: the paragraph of the base page, or FFFFH. */
static uint16_t load_call(uint16_t ds, uint16_t dx)
{
    uint8_t fcb[CHURAWEL_FCB_BYTES];
    take(ds, dx, fcb, sizeof fcb);
    uint32_t answer = load_file(fcb);
    return CHURAWEL_NUMBER(answer) == 0 ? (uint16_t)CHURAWEL_VALUE(answer) : 0xFFFF;
}

static void interrupt(uc_engine *uc, uint32_t number, void *unused)
{
    uint16_t cx, dx, ds, ax;
    (void)unused;
    if (number != SYSTEM)
        fail("an interrupt that is not the system's:", number);
    uc_reg_read(uc, UC_X86_REG_CX, &cx);
    uc_reg_read(uc, UC_X86_REG_DX, &dx);
    uc_reg_read(uc, UC_X86_REG_DS, &ds);
    uint8_t function = (uint8_t)cx, al = 0, ah = 0;
    calls++;
    switch (function) {
    case END_PROGRAM:
        uc_emu_stop(uc);
        return;
    case PUT_CHARACTER:
        putchar(dx & 255);
        break;
    case PUT_TEXT:
        for (uint16_t i = dx; *at(ds, i) != TEXT_END; i++)
            putchar(*at(ds, i));
        break;
    case SET_DMA:
        dma_offset = dx;
        break;
    case SET_DMA_BASE:
        dma_base = dx;
        break;
    case CHURAWEL_FN_GET_MAX_MEM:
    case CHURAWEL_FN_GET_ABS_MAX:
    case CHURAWEL_FN_ALLOC_MEM:
    case CHURAWEL_FN_ALLOC_ABS_MEM:
    case CHURAWEL_FN_FREE_MEM:
    case CHURAWEL_FN_FREE_ALL_MEM:
        al = memory_call(function, ds, dx);
        break;
    case CHURAWEL_FN_PROGRAM_LOAD:
        ax = load_call(ds, dx);
        uc_reg_write(uc, UC_X86_REG_AX, &ax);
        uc_reg_write(uc, UC_X86_REG_BX, &ax);
        return;
    default:
        al = file_call(uc, function, is_several(function) ? (uint8_t)(cx >> 8) : (uint8_t)dx, ds, dx, &ah);
    }
    ax = (uint16_t)(ah << 8 | al);
    uc_reg_write(uc, UC_X86_REG_AX, &ax);
}

/* The command processor takes a command line in capitals. */
static uint8_t capital(char c)
{
    return (uint8_t)(c >= 'a' && c <= 'z' ? c - 'a' + 'A' : c);
}

/* A name as the command processor lays it into a control block, filled up with blanks. */
static void name_into(uint8_t *fcb, const char *name)
{
    memset(fcb, 0, CHURAWEL_FCB_BYTES);
    memset(fcb + 1, ' ', NAME_BYTES + TYPE_BYTES);
    uint8_t *to = fcb + 1, *end = to + NAME_BYTES;
    for (; *name > ' '; name++) {
        if (*name == '.') {
            to = fcb + 1 + NAME_BYTES;
            end = to + TYPE_BYTES;
        } else if (to < end)
            *to++ = capital(*name);
    }
}

static void read_image(const char *path)
{
    FILE *f = fopen(path, "rb");
    if (f == NULL || fseek(f, 0, SEEK_END) != 0)
        fail("no image, argument", 1);
    image_bytes = (size_t)ftell(f);
    rewind(f);
    image = malloc(image_bytes);
    spare = malloc(image_bytes);
    if (image == NULL || spare == NULL || fread(image, 1, image_bytes, f) != image_bytes)
        fail("the image can't be read, argument", 1);
    fclose(f);
}

static void write_image(const char *path)
{
    FILE *f = fopen(path, "wb");
    if (f == NULL || fwrite(image, 1, image_bytes, f) != image_bytes || fclose(f) != 0)
        fail("the image can't be written, argument", 6);
}

/* The base page's part that the command processor lays: the control block of the tail's first word, the tail with its length in
 * front and its blank first, the DMA address. */
static void lay_tail(uint16_t base, const char *tail)
{
    uint8_t fcb[CHURAWEL_FCB_BYTES];
    size_t n = strlen(tail);
    name_into(fcb, tail);
    lay(base, BASE_FCB, fcb, sizeof fcb);
    *at(base, BASE_TAIL) = (uint8_t)(n + 1);
    *at(base, BASE_TAIL + 1) = ' ';
    for (size_t i = 0; i < n; i++)
        *at(base, (uint16_t)(BASE_TAIL + 2 + i)) = capital(tail[i]);
    dma_base = base;
    dma_offset = BASE_TAIL;
}

/* Loads the program by 59: the paragraph of its base page. */
static uint16_t load(const char *name)
{
    uint8_t fcb[CHURAWEL_FCB_BYTES];
    name_into(fcb, name);
    table[0] = 1; /* one piece of memory, no region yet */
    table[2] = FREE_FROM & 255;
    table[3] = FREE_FROM >> 8;
    table[4] = (FREE_TO - FREE_FROM) & 255;
    table[5] = (FREE_TO - FREE_FROM) >> 8;
    uint32_t answer = load_file(fcb);
    if (CHURAWEL_NUMBER(answer) != 0)
        fail("the program can't be loaded:", CHURAWEL_NUMBER(answer));
    return (uint16_t)CHURAWEL_VALUE(answer);
}

/* A far call from the command processor: what stands at the return address ends the program. */
static void lay_return(void)
{
    static const uint8_t end[] = {0xB1, END_PROGRAM, 0xCD, SYSTEM}; /* mov cl, 0 and int 224 */
    static const uint8_t address[] = {0, 0, RETURN_BASE, 0};
    lay(RETURN_BASE, 0, end, sizeof end);
    lay(STACK_BASE, STACK_BYTES, address, sizeof address);
}

/* Starts the program of this base page (docs/EMULATOR.md, "Starting the program"), and runs it until it ends. */
static void run(uint16_t base)
{
    uc_engine *uc;
    uc_hook hook;
    /* the engine takes a handler as a pointer to data */
    union {
        void (*handler)(uc_engine *, uint32_t, void *);
        void *pointer;
    } on_interrupt = {interrupt};
    uint16_t code = word_at(base, BASE_CODE), stack = STACK_BASE, top = STACK_BYTES, extra = base;
    uint32_t start = code == base ? BASE_BYTES : 0;
    if (word_at(base, LAST_EXTRA) != 0 || *at(base, LAST_EXTRA + 2) != 0)
        extra = word_at(base, BASE_EXTRA);
    lay_return();
    if (uc_open(UC_ARCH_X86, UC_MODE_16, &uc) != UC_ERR_OK || uc_mem_map_ptr(uc, 0, MEMORY_BYTES, UC_PROT_ALL, memory) != UC_ERR_OK
        || uc_hook_add(uc, &hook, UC_HOOK_INTR, on_interrupt.pointer, NULL, 1, 0) != UC_ERR_OK)
        fail("no processor", 0);
    uc_reg_write(uc, UC_X86_REG_CS, &code);
    uc_reg_write(uc, UC_X86_REG_DS, &base);
    uc_reg_write(uc, UC_X86_REG_ES, &extra);
    uc_reg_write(uc, UC_X86_REG_SS, &stack);
    uc_reg_write(uc, UC_X86_REG_SP, &top);
    uc_err e = uc_emu_start(uc, (uint64_t)code * PARAGRAPH + start, MEMORY_BYTES, 0, 0);
    if (e != UC_ERR_OK)
        fail(uc_strerror(e), (unsigned long)e);
    uc_close(uc);
}

int main(int argc, char **argv)
{
    if (argc < 9)
        fail("arguments:", (unsigned long)(argc - 1));
    uint32_t numbers[4];
    for (int i = 0; i < 4; i++)
        numbers[i] = (uint32_t)strtoul(argv[2 + i], NULL, 10);
    if (strcmp(argv[7], "all") != 0)
        stores_left = (uint32_t)strtoul(argv[7], NULL, 10);
    read_image(argv[1]);
    drive_bytes = churawel_drive_bytes(numbers[1]);
    uint32_t answer = churawel_log_in(numbers[0], numbers[1], numbers[2], numbers[3], image, image_bytes, drive, drive_bytes);
    if (CHURAWEL_NUMBER(answer) != 0)
        fail("the image is refused:", CHURAWEL_NUMBER(answer));
    uint16_t base = load(argv[8]);
    lay_tail(base, argc > 9 ? argv[9] : "");
    run(base);
    write_image(argv[6]);
    fprintf(stderr, "%s after %ld calls\n", closed_halfway ? "closed" : "ended", calls);
    return 0;
}
