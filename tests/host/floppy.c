// Request (i): eight-inch floppies. Where records lie is written down by hand, and each call on an image is done on the unskewed
// volume as well: both must answer the same and leave the same.
#include "churawel.h"
#include "desk.h"

#include <stdio.h>
#include <string.h>

enum {
    BLOCK_BYTES = 1024,
    TOTAL = 243,
    DIRECTORY = 2,
    TRACK = 26,
    RESERVED = 2 * TRACK,
    RECORDS = TOTAL * BLOCK_BYTES / RECORD, // of the volume
    LOGICAL = 75 * TRACK,                   // with the last six
    IMAGE = 77 * TRACK * RECORD,
    PLACING_AT = 24
};

// The sector of each place of a track.
static const uint8_t sectors[TRACK] = {1, 7,  13, 19, 25, 5, 11, 17, 23, 3,  9,  15, 21,
                                       2, 8,  14, 20, 26, 6, 12, 18, 24, 4,  10, 16, 22};

static size_t start(size_t q)
{
    return ((2 + q / TRACK) * TRACK + sectors[q % TRACK] - 1) * RECORD;
}

// What is lent for a disk: an image, or its unskewed volume.
struct disk {
    uint8_t drive[CHURAWEL_DRIVE_BYTES], fcb[CHURAWEL_FCB_BYTES], buffer[PIECES * RECORD];
    uint8_t bytes[IMAGE];
    size_t length;
    uint32_t placing;
};

static struct disk image = {.length = IMAGE, .placing = CHURAWEL_EIGHT_INCH};
static struct disk straight = {.length = TOTAL * BLOCK_BYTES, .placing = CHURAWEL_STRAIGHT};
static uint8_t first[IMAGE]; // the image as it was at the beginning

static uint32_t log_disk_in(struct disk *d)
{
    return churawel_log_in(BLOCK_BYTES, TOTAL, DIRECTORY, d->placing, d->bytes, d->length, d->drive, sizeof d->drive);
}

static uint32_t call_disk(struct disk *d, uint8_t function, uint8_t parameter)
{
    size_t bytes = function >= 220 ? parameter * (size_t)RECORD : RECORD;
    return churawel_call(function, parameter, d->drive, sizeof d->drive, d->bytes, d->length, d->fcb, sizeof d->fcb, d->buffer, bytes);
}

// Are control block, buffer and drive the same but for the placing, is each record where it should lie, and is all else of the image
// as it was?
static int alike(void)
{
    static uint8_t expected[IMAGE];
    uint8_t drive[CHURAWEL_DRIVE_BYTES];
    memcpy(expected, first, IMAGE);
    for (size_t q = 0; q < RECORDS; q++)
        memcpy(expected + start(q), straight.bytes + q * RECORD, RECORD);
    memcpy(drive, image.drive, sizeof drive);
    drive[PLACING_AT] = CHURAWEL_STRAIGHT;
    int open = image.drive[PLACING_AT] == CHURAWEL_EIGHT_INCH, closed = image.drive[1] == 0 && image.drive[PLACING_AT] == 0;
    return memcmp(expected, image.bytes, IMAGE) == 0 && memcmp(drive, straight.drive, sizeof drive) == 0 && (open || closed)
           && memcmp(image.fcb, straight.fcb, sizeof image.fcb) == 0
           && memcmp(image.buffer, straight.buffer, sizeof image.buffer) == 0;
}

// An empty disk; what no record of the volume stands in has bytes of its own.
static void empty_disks(void)
{
    for (size_t i = 0; i < IMAGE; i++)
        first[i] = (uint8_t)(i % 253 + i / 1000);
    for (size_t i = 0; i < straight.length; i++)
        straight.bytes[i] = i < DIRECTORY * BLOCK_BYTES ? 0xE5 : (uint8_t)(i % 251 + i / 1024);
    memcpy(image.bytes, first, IMAGE);
    for (size_t q = 0; q < RECORDS; q++)
        memcpy(image.bytes + start(q), straight.bytes + q * RECORD, RECORD);
    verdict("an empty floppy: 241 free", log_disk_in(&image) == 241u << 16 && log_disk_in(&straight) == 241u << 16 && alike());
}

// The control block for both: name, ex, cr and record.
static void aim_both(const char *name, uint8_t ex, uint8_t cr, uint32_t n)
{
    uint8_t fcb[CHURAWEL_FCB_BYTES] = {0};
    memcpy(fcb + 1, name, 11);
    memcpy(fcb + 17, "OTHER   TXT", 11);
    fcb[12] = ex;
    fcb[32] = cr;
    fcb[33] = (uint8_t)n;
    fcb[34] = (uint8_t)(n >> 8);
    memcpy(image.fcb, fcb, sizeof fcb);
    memcpy(straight.fcb, fcb, sizeof fcb);
}

static void fill_both(uint8_t seed)
{
    for (size_t i = 0; i < sizeof image.buffer; i++)
        image.buffer[i] = straight.buffer[i] = (uint8_t)(seed + i * 5 + i / RECORD);
}

// One case: the call on both.
static void on_both(const char *what, uint8_t function, uint8_t parameter, uint32_t answer)
{
    char said[140];
    uint32_t one = call_disk(&image, function, parameter), other = call_disk(&straight, function, parameter);
    snprintf(said, sizeof said, "a floppy: %s: as on the unskewed volume", what);
    verdict(said, one == answer && other == answer && alike());
}

static void calls(void)
{
    empty_disks();
    aim_both(DRAFT, 0, 0, 0);
    on_both("make", 22, 0, 0);
    for (unsigned n = 0; n < 128; n++) {
        aim_both(DRAFT, 0, 0, n);
        fill_both((uint8_t)n);
        uint32_t one = call_disk(&image, 34, 0), other = call_disk(&straight, 34, 0);
        if (one != 0 || other != 0 || !alike())
            verdict("a floppy: write of the first 128 records", 0);
    }
    verdict("a floppy: the first 128 records are written as on the unskewed volume", alike());
    // Records 0, 1 and 13 of block 2 and on: logical records 16, 17 and 29.
    verdict("record 0, logical record 16, is in sector 20 of track 2", image.bytes[(2 * 26 + 19) * RECORD] == 0);
    verdict("record 1 is in sector 26", image.bytes[(2 * 26 + 25) * RECORD] == 1);
    verdict("record 13, logical record 29, is in sector 19 of track 3", image.bytes[(3 * 26 + 18) * RECORD] == 13);
    aim_both(DRAFT, 1, 0, 0);
    fill_both(9);
    on_both("221 of sixteen records in a new group", 221, 16, 16u << 16);
    aim_both(DRAFT, 1, 0, 0);
    fill_both(1);
    on_both("220 of sixteen records", 220, 16, 16u << 16);
    aim_both(DRAFT, 0, 0, 256 + 12);
    fill_both(3);
    on_both("40 in a new block", 40, 0, 0);
    aim_both(FINAL, 0, 0, 0);
    on_both("make of a second file", 22, 0, 3);
    on_both("21 of its first record", 21, 0, 0);
    aim_both("?????   TXT", 0, 0, 0);
    on_both("search first", 17, 0, 0);
    on_both("search next", 18, 0, 3);
    on_both("search next without a hit", 18, 0, 255);
    aim_both(DRAFT, 1, 0, 0);
    on_both("open", 15, 0, 1);
    on_both("close", 16, 0, 1);
    on_both("size", 35, 0, 0);
    on_both("set random", 36, 0, 0);
    aim_both(DRAFT, 0, 0, 40);
    on_both("read random", 33, 0, 0);
    aim_both(DRAFT, 0, 0, 300);
    on_both("read of a record that is not present", 33, 0, 1);
    aim_both(DRAFT, 0, 0, 0);
    on_both("attributes", 30, 0, 0);
    on_both("rename", 23, 0, 0);
    aim_both("OTHER   TXT", 0, 0, 0);
    on_both("delete", 19, 0, 0);
    on_both("user", 32, 7, 0);
    on_both("protect", 28, 0, 0);
    on_both("log-in anew keeps the placing", 13, 0, 240u << 16);
    on_both("and so does 37", 37, 0, 240u << 16);
}

// The disk filled to its last block: the reserved tracks and the last six logical records keep their bytes.
static void full(void)
{
    empty_disks();
    aim_both(DRAFT, 0, 0, 0);
    on_both("make", 22, 0, 0);
    int good = 1;
    for (unsigned n = 0; n < 241 * 8; n += 16) {
        aim_both(DRAFT, (uint8_t)(n / 128), (uint8_t)(n % 128), 0);
        uint8_t k = n + 16 <= 241 * 8 ? 16 : 8;
        fill_both((uint8_t)(n / 16));
        good &= call_disk(&image, 221, k) == (uint32_t)k << 16 && call_disk(&straight, 221, k) == (uint32_t)k << 16;
    }
    verdict("a full floppy: as the unskewed volume", good && alike());
    good = memcmp(image.bytes, first, RESERVED * RECORD) == 0;
    for (size_t q = RECORDS; q < LOGICAL; q++)
        good &= memcmp(image.bytes + start(q), first + start(q), RECORD) == 0;
    verdict("its reserved tracks and last six logical records have every byte", good);
    aim_both(DRAFT, 15, 8, 0);
    on_both("a write with no block left", 21, 0, 2);
}

// Cuts: the stores lie where the records do, in logical order.
static void cuts(void)
{
    static struct disk before;
    uint8_t kept[IMAGE];
    empty_disks();
    aim_both(DRAFT, 0, 0, 2);
    on_both("make", 22, 0, 0);
    aim_both(DRAFT, 0, 0, 2);
    fill_both(5);
    before = image;
    int good = 1;
    for (uint32_t most = 0; most <= 10; most++) {
        image = before;
        memcpy(kept, before.bytes, IMAGE);
        for (uint32_t i = 0; i < most && i < 8; i++)
            if (i == 2)
                memcpy(kept + start(16 + i), before.buffer, RECORD);
            else
                memset(kept + start(16 + i), 0, RECORD);
        if (most >= 9) {
            kept[start(0) + 15] = 3;
            kept[start(0) + 16] = 2;
        }
        uint32_t said = churawel_cut(most, 40, 0, image.drive, sizeof image.drive, image.bytes, IMAGE, image.fcb, 36, image.buffer, RECORD);
        good &= said == (most < 9 ? most : 9) << 16 && memcmp(kept, image.bytes, IMAGE) == 0 && image.drive[PLACING_AT] == 0;
        good &= CHURAWEL_NUMBER(log_disk_in(&image)) == 0;
    }
    verdict("40 on a floppy cut after each of its nine stores", good);
}

// Log-in with these numbers: the answer, and nothing but zeros in the drive.
static void not_lawful(const char *what, uint32_t block, uint32_t total, uint32_t directory, uint32_t placed, size_t length, uint32_t number)
{
    uint8_t drive[CHURAWEL_DRIVE_BYTES];
    int zero = 1;
    memset(drive, 0xAA, sizeof drive);
    uint32_t said = churawel_log_in(block, total, directory, placed, image.bytes, length, drive, sizeof drive);
    for (size_t i = 0; i < sizeof drive; i++)
        zero &= drive[i] == 0;
    verdict(what, said == number && zero);
}

static void refusals(void)
{
    empty_disks();
    not_lawful("placing 2: 32", 1024, 243, 2, 2, IMAGE, 32);
    not_lawful("placing 257: 32", 1024, 243, 2, 257, IMAGE, 32);
    not_lawful("placing 65,537: 32", 1024, 243, 2, 65537, IMAGE, 32);
    not_lawful("an eight-inch floppy of 2,048-byte blocks: 32", 2048, 243, 2, 1, IMAGE, 32);
    not_lawful("of 242 blocks: 32", 1024, 242, 2, 1, IMAGE, 32);
    not_lawful("of 244 blocks: 32", 1024, 244, 2, 1, IMAGE, 32);
    not_lawful("of one directory block: 32", 1024, 243, 1, 1, IMAGE, 32);
    not_lawful("V's geometry with that placing: 32", 1024, 40, 1, 1, 40960, 32);
    not_lawful("a byte short: 33", 1024, 243, 2, 1, IMAGE - 1, 33);
    not_lawful("the unskewed volume's length: 33", 1024, 243, 2, 1, TOTAL * BLOCK_BYTES, 33);
    not_lawful("an image as a straight volume: 33", 1024, 243, 2, 0, IMAGE, 33);
    aim_both(DRAFT, 0, 0, 0);
    memcpy(first, image.bytes, IMAGE);
    image.length = TOTAL * BLOCK_BYTES;
    int good = call_disk(&image, 15, 0) == 33 && call_disk(&image, 34, 0) == 33 && call_disk(&image, 32, 255) == 0;
    verdict("calls on another length: 33, and nothing changes", good && memcmp(first, image.bytes, IMAGE) == 0);
    verdict("13 on another length: 33, and the drive is closed", call_disk(&image, 13, 0) == 33 && image.drive[1] == 0 && image.drive[PLACING_AT] == 0);
    image.length = IMAGE;
    log_disk_in(&image);
    good = 1;
    for (unsigned byte = 2; byte < 256; byte++) {
        image.drive[PLACING_AT] = (uint8_t)byte;
        good &= call_disk(&image, 32, 255) == 32;
    }
    verdict("drive byte 24 above 1: closed", good);
    image.drive[PLACING_AT] = CHURAWEL_STRAIGHT;
    verdict("drive byte 24 is 0: a straight volume, so 33", call_disk(&image, 15, 0) == 33);
    straight.drive[PLACING_AT] = CHURAWEL_EIGHT_INCH;
    verdict("drive byte 24 is 1 on a straight volume: 33", call_disk(&straight, 15, 0) == 33);
    image.drive[2] = 40;
    image.drive[PLACING_AT] = CHURAWEL_EIGHT_INCH;
    verdict("drive byte 24 is 1 with other numbers: 32", call_disk(&image, 15, 0) == 32);
}

static void told(void)
{
    uint8_t fault[CHURAWEL_FAULT_BYTES], line[CHURAWEL_FILE_BYTES];
    empty_disks();
    aim_both(DRAFT, 0, 0, 0);
    on_both("make", 22, 0, 0);
    aim_both(DRAFT, 0, 0, 0);
    on_both("write", 34, 0, 0);
    uint32_t said = churawel_file(image.drive, sizeof image.drive, image.bytes, IMAGE, 0, line, sizeof line);
    verdict("a file's line of a floppy", said == 0 && memcmp(line + 1, DRAFT, 11) == 0 && line[14] == 1 && line[18] == 1);
    // Slot 5 is in logical record 1, which is in sector 7 of track 2.
    uint8_t *slot = image.bytes + (2 * 26 + 6) * RECORD + ENTRY;
    memcpy(slot, image.bytes + start(0), ENTRY);
    slot[1] = 'X';
    said = churawel_fault(BLOCK_BYTES, TOTAL, DIRECTORY, CHURAWEL_EIGHT_INCH, image.bytes, IMAGE, fault, sizeof fault);
    verdict("a fault of a floppy: block 2 of slot 0 in slot 5 too",
            said == (36 | 5u << 16) && fault[0] == 10 && fault[2] == 2 && fault[4] == 5 && fault[6] == 0 && fault[9] == 'X');
    verdict("log-in: 36", log_disk_in(&image) == (36 | 5u << 16) && image.drive[PLACING_AT] == 0);
}

void floppies(void)
{
    calls();
    full();
    cuts();
    refusals();
    told();
}
