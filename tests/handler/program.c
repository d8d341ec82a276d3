/*
 * Runs the handler of docs/handler.c as an emulator would: registers are set as a program of CP/M-86 sets them, and what the
 * program then finds in AL, in its control block and at its DMA address is compared with what the paper says. A line for each
 * case; the last line is `N passed, M failed`.
 */
#include "../../docs/handler.c"

#include <stdio.h>

enum { IMAGE_MOST = 257 * 2048, DS = 0x1000, FCB = 0x15C, DMA = 0x180 };

/* A has the paper's disk, B a hard disk of more than 256 blocks. */
static const uint32_t block[DRIVES] = {1024, 2048}, blocks[DRIVES] = {40, 257};

static struct machine m;
static uint8_t images[DRIVES][IMAGE_MOST];
static int passed, failed;

static void expect(const char *what, long got, long wanted)
{
    if (got == wanted) {
        passed++;
        printf("ok %s\n", what);
    } else {
        failed++;
        printf("FAILED %s: %ld and not %ld\n", what, got, wanted);
    }
}

static uint8_t *fcb(void)
{
    return at(&m, DS, FCB);
}

static uint8_t *dma(void)
{
    return at(&m, m.dma_base, m.dma_offset);
}

/* A control block of this drive and name, at record n. */
static void name(uint8_t dr, const char *eleven, unsigned n)
{
    memset(fcb(), 0, CHURAWEL_FCB_BYTES);
    fcb()[0] = dr;
    memcpy(fcb() + 1, eleven, 11);
    fcb()[33] = (uint8_t)n;
    fcb()[34] = (uint8_t)(n >> 8);
}

/* INT 224 with CL, CH and DX; DL is DX's low byte, as the processor has it. */
static uint8_t int224(uint8_t cl, uint8_t ch, uint16_t dx)
{
    m.cl = cl;
    m.ch = ch;
    m.dx = dx;
    m.dl = (uint8_t)dx;
    file_call(&m);
    return m.al;
}

static void put_images_in(void)
{
    m.ds = DS;
    m.dma_base = DS;
    m.dma_offset = DMA;
    for (int i = 0; i < DRIVES; i++) {
        memset(images[i], 0xE5, IMAGE_MOST);
        uint32_t answer = put_in(&m.disk[i], images[i], (size_t)block[i] * blocks[i], block[i], blocks[i], 1, CHURAWEL_STRAIGHT);
        expect("log-in of an empty volume: 0", CHURAWEL_NUMBER(answer), 0);
        expect("all blocks but the directory's are free", CHURAWEL_VALUE(answer), blocks[i] - 1);
    }
}

static void files_on_two_drives(void)
{
    name(0, "SIGLA   TXT", 0);
    expect("make on the current drive: code 0", int224(22, 0, FCB), 0);
    expect("A's image has changed", m.disk[0].changed, 1);
    expect("B's has not", m.disk[1].changed, 0);
    name(2, "COLLATIOTXT", 0);
    expect("make on drive B: code 0", int224(22, 0, FCB), 0);
    expect("the program's dr is put back", fcb()[0], 2);
    expect("B has the entry", images[1][1], 'C');
    expect("A has it not", memcmp(images[0] + 1, "SIGLA   TXT", 11), 0);
    expect("make it again: 255 in AL", int224(22, 0, FCB), 255);
    name(3, "SIGLA   TXT", 0);
    expect("a drive that is not there: 255", int224(15, 0, FCB), 255);
    name(0, "a=b        ", 0);
    expect("a name that can't be typed: 255", int224(22, 0, FCB), 255);
}

static void records(void)
{
    name(0, "SIGLA   TXT", 0);
    memset(dma(), 'A', 128);
    expect("write record 0: 0", int224(34, 0, FCB), 0);
    expect("its bytes stand at 1,024", images[0][1024], 'A');
    name(0, "SIGLA   TXT", 20);
    memset(dma(), 'B', 128);
    expect("write record 20: 0", int224(34, 0, FCB), 0);
    expect("its bytes stand at 2,560", images[0][2560], 'B');
    name(0, "SIGLA   TXT", 8);
    expect("read 8, in a gap: 1", int224(33, 0, FCB), 1);
    name(0, "SIGLA   TXT", 128);
    expect("read 128, in a missing extent: 4", int224(33, 0, FCB), 4);
    name(0, "SIGLA   TXT", 0);
    memset(dma(), 0, 128);
    expect("read 0: 0", int224(33, 0, FCB), 0);
    expect("the record is at the DMA address", dma()[127], 'A');
    expect("size: 0", int224(35, 0, FCB), 0);
    expect("21 records", fcb()[33] + 256 * fcb()[34], 21);
}

/* Three records by one call, with the count in CH: DL is 5CH here and means nothing. */
static void several(void)
{
    name(0, "SIGLA   TXT", 0);
    for (int i = 0; i < 3; i++)
        memset(dma() + 128 * i, '1' + i, 128);
    expect("221 of three records: 0", int224(221, 3, FCB), 0);
    expect("three are done, in AH", m.ah, 3);
    expect("cr stands behind them", fcb()[32], 3);
    expect("the third stands at 1,280", images[0][1280], '3');
    name(0, "SIGLA   TXT", 0);
    memset(dma(), 0, 3 * 128);
    fcb()[32] = 1;
    expect("220 of sixteen stops in a gap: 1", int224(220, 16, FCB), 1);
    expect("seven were done", m.ah, 7);
    expect("the first of them is record 1", dma()[0], '2');
    expect("seventeen records: 46", int224(220, 17, FCB), 46);
}

static void searches_and_users(void)
{
    name(2, "???????????", 0);
    expect("search first on B: code 0", int224(17, 0, FCB), 0);
    expect("the directory record is shown", dma()[1], 'C');
    expect("search next goes on there: 255", int224(18, 0, 0), 255);
    expect("user 3 for both drives: 0", int224(32, 0, 3), 0);
    expect("the current user is 3", int224(32, 0, 255), 3);
    name(2, "COLLATIOTXT", 0);
    expect("user 3 has no such file on B: 255", int224(15, 0, FCB), 255);
    expect("13 logs all drives in anew: 0", int224(13, 0, 0), 0);
    expect("and the program's user is still 3", int224(32, 0, 255), 3);
    expect("37 for drive B alone: 0", int224(37, 0, 2), 0);
    expect("user 0 again: 0", int224(32, 0, 0), 0);
    expect("B's file is opened: 0", int224(15, 0, FCB), 0);
}

/* The control block may lie inside the transfer buffer: copies are lent, and the control block is stored last. */
static void overlapping(void)
{
    name(0, "SIGLA   TXT", 0);
    m.dma_offset = FCB - 64;
    expect("read with the control block inside the buffer: 0", int224(33, 0, FCB), 0);
    expect("the record before it", *at(&m, DS, FCB - 1), '1');
    expect("the control block is whole", memcmp(fcb() + 1, "SIGLA   TXT", 11), 0);
    expect("and the record behind it", *at(&m, DS, FCB + 36), '1');
    m.dma_offset = DMA;
}

static void protection(void)
{
    expect("28 protects the current drive: 0", int224(28, 0, 0), 0);
    name(0, "SIGLA   TXT", 0);
    expect("a write is refused by 37", int224(34, 0, FCB), 37);
    expect("a delete is refused: 255 in AL", int224(19, 0, FCB), 255);
    name(2, "COLLATIOTXT", 0);
    expect("B is not protected", int224(34, 0, FCB), 0);
    expect("its record 0 stands at 2,048", memcmp(images[1] + 2048, dma(), 128), 0);
    expect("in block 1, whose number takes two bytes", images[1][16] + 256 * images[1][17], 1);
    expect("log-in ends it", int224(13, 0, 0), 0);
    name(0, "SIGLA   TXT", 0);
    expect("delete: 0", int224(19, 0, FCB), 0);
    expect("a function that is not served: 255", int224(99, 0, FCB), 255);
}

static uint16_t ax(void)
{
    return (uint16_t)(m.al | m.ah << 8);
}

/* A word at DS:offset, of a memory control block. */
static void word(uint16_t offset, unsigned value)
{
    uint8_t *place = at(&m, DS, offset);
    place[0] = (uint8_t)value;
    place[1] = (uint8_t)(value >> 8);
}

/* A CMD file on A: its header has these descriptors, record n of its image the bytes 90H + n. */
static void write_program(const char *eleven, const uint8_t *descriptors, size_t count, unsigned records)
{
    name(1, eleven, 0);
    int224(22, 0, FCB);
    for (unsigned n = 0; n < records; n++) {
        name(1, eleven, n);
        memset(dma(), n == 0 ? 0 : 0x90 + (int)n, 128);
        if (n == 0)
            memcpy(dma(), descriptors, count);
        int224(34, 0, FCB);
    }
}

/* 59 of a file on A; what it answers in AX. */
static uint16_t load_named(const char *eleven)
{
    name(1, eleven, 0);
    int224(59, 0, FCB);
    return ax();
}

/* Starts what was loaded: has each register its group? The caller's own registers stand again afterwards, but CS and IP. */
static int starts(uint16_t cs, uint16_t ds, uint16_t es, uint16_t ip)
{
    start_program(&m, ax());
    int right = m.cs == cs && m.ds == ds && m.es == es && m.ip == ip && m.dma_base == ds && m.dma_offset == 0x80;
    m.ds = DS;
    m.dma_base = DS;
    m.dma_offset = DMA;
    return right;
}

/*
 * A program of code alone, 20H paragraphs with its base page; one of data, an extra group and code, in this order; and one of code, 11H
 * paragraphs with its base page, and an extra group.
 */
static void starting(void)
{
    static const uint8_t alone[] = {1, 0x20, 0, 0, 0, 0x20, 0, 0x20, 0};
    static const uint8_t three[] = {2, 2, 0, 0, 0, 0x10, 0, 0x10, 0, 3, 1, 0, 0, 0, 0, 0, 0, 0, 1, 1, 0, 0, 0, 0, 0, 0, 0};
    static const uint8_t no_data[] = {1, 0x11, 0, 0, 0, 0, 0, 0, 0, 3, 1, 0, 0, 0, 0, 0, 0, 0};
    write_program("ALONE   CMD", alone, sizeof alone, 5);
    expect("59 answers the paragraph of the base page in AX", load_named("ALONE   CMD"), 0x2100);
    expect("and in BX", m.bx, 0x2100);
    expect("the image stands behind the base page's 30H bytes", *at(&m, 0x2100, 0x30), 0x91);
    expect("code alone starts at 100H of its region, with the DMA address in its base page", starts(0x2100, 0x2100, 0x2100, 0x100), 1);
    write_program("THREE   CMD", three, sizeof three, 2);
    expect("with a data group the base page is there", load_named("THREE   CMD"), 0x2120);
    expect("code, data and extra: each register has its group, IP is 0", starts(0x2131, 0x2120, 0x2130, 0), 1);
    write_program("NODATA  CMD", no_data, sizeof no_data, 4);
    expect("without a data group the base page is in the code", load_named("NODATA  CMD"), 0x2132);
    expect("where M80 is 0 beside another group", *at(&m, 0x2132, 5), 0);
    expect("code and extra: each register has its group, IP is 100H", starts(0x2132, 0x2132, 0x2143, 0x100), 1);
    expect("where the code is, behind the base page", *at(&m, m.cs, m.ip), 0x93);
    expect("59 of no such file is FFFFH", load_named("NOTHING CMD"), 0xFFFF);
}

/* The memory calls, and programs loaded and started. */
static void programs(void)
{
    memset(m.table, 0, sizeof m.table);
    m.table[0] = 1;
    m.table[3] = 0x20; /* one piece, from paragraph 2000H to 2FFFH */
    m.table[5] = 0x10;
    word(0x300, 0x2000);
    word(0x302, 0x100);
    *at(&m, DS, 0x304) = 7;
    expect("56 grants a region", int224(56, 0, 0x300), 0);
    expect("and M-Ext becomes 0", *at(&m, DS, 0x304), 0);
    expect("56 of the same region is refused", int224(56, 0, 0x300), 255);
    starting();
    expect("58 frees all", int224(58, 0, 0), 0);
    expect("so that the table has no region", m.table[1], 0);
}

/* In the place of the hard disk an eight-inch floppy: record 0 of a file is logical record 16, in sector 20 of track 2. */
static void floppy(void)
{
    memset(images[1], 0xE5, 256256);
    uint32_t answer = put_in(&m.disk[1], images[1], 256256, 1024, 243, 2, CHURAWEL_EIGHT_INCH);
    expect("log-in of an empty floppy: 0", CHURAWEL_NUMBER(answer), 0);
    expect("241 blocks are free", CHURAWEL_VALUE(answer), 241);
    name(2, "SIGLA   TXT", 0);
    expect("make on it: code 0", int224(22, 0, FCB), 0);
    memset(dma(), 'F', 128);
    expect("write record 0: 0", int224(34, 0, FCB), 0);
    expect("its bytes stand in sector 20 of track 2", images[1][(2 * 26 + 19) * 128], 'F');
    expect("13 logs it in anew: 0", int224(13, 0, 0), 0);
    memset(dma(), 0, 128);
    name(2, "SIGLA   TXT", 0);
    expect("read record 0: 0", int224(33, 0, FCB), 0);
    expect("the record is at the DMA address", dma()[127], 'F');
}

int main(void)
{
    put_images_in();
    files_on_two_drives();
    records();
    several();
    searches_and_users();
    overlapping();
    programs();
    protection();
    floppy();
    printf("%d passed, %d failed\n", passed, failed);
    return failed > 0;
}
