/*
 * Churawel: the file calls of SCP 1700 (a CP/M-86) over a disk image, for an emulator, and its GENCMD. C11 and C++.
 *
 * Everything is lent: the caller owns all memory, and nothing is kept between calls. No heap is used, and of the C library only memset
 * and memcpy. A slice is a pointer and the number of bytes; the pointer is never null, also where the number is 0, and the slices of
 * one call do not overlap. docs/EMULATOR.md says how a handler of INT 224 uses this.
 *
 * This file is kept by hand beside crates/churawel/src/lib.rt, which says exactly what each call leaves; tests/host compares
 * its functions, lengths and numbers with the source.
 */
#ifndef CHURAWEL_H
#define CHURAWEL_H

#include <stddef.h>
#include <stdint.h>

#ifdef __cplusplus
extern "C" {
#endif

/*
 * The lengths that calls want: of a drive up to 256 blocks, of a drive above, of a control block, of the transfer buffer (k times
 * as long for k records, at most so many), of a fault, of a file's line, of a shelf, of a memory table, and of a memory control block;
 * and the most bytes that a CMD file has.
 */
#define CHURAWEL_DRIVE_BYTES 64
#define CHURAWEL_WIDE_DRIVE_BYTES 544
#define CHURAWEL_FCB_BYTES 36
#define CHURAWEL_BUFFER_BYTES 128
#define CHURAWEL_RECORDS_MOST 16
#define CHURAWEL_FAULT_BYTES 32
#define CHURAWEL_FILE_BYTES 24
#define CHURAWEL_SHELF_BYTES 64
#define CHURAWEL_TABLE_BYTES 66
#define CHURAWEL_MCB_BYTES 5
#define CHURAWEL_CMD_MOST 262272

/*
 * The two halves of an answer: its number, and a log-in's count of free blocks or its lowest bad slot, or of several records
 * how many were done, or of a cut how many stores were made, or of a load the paragraph of its base page. An answer of 64 bits has its
 * number there too, and a length above.
 */
#define CHURAWEL_NUMBER(answer) ((answer) & 0xFFFFu)
#define CHURAWEL_VALUE(answer) ((answer) >> 16)
#define CHURAWEL_LENGTH(answer) ((answer) >> 32)

/* The parts of what churawel_manuscript answers: its number, which list, and where the name begins; and a name's length. */
#define CHURAWEL_TOLD(told) ((uint32_t)((told) & 0xFFFFu))
#define CHURAWEL_LIST(told) ((uint32_t)((told) >> 16 & 0xFFFFu))
#define CHURAWEL_NAME_AT(told) ((size_t)((told) >> 32))
#define CHURAWEL_NAME_BYTES 30

/* The functions that are served; any other number is refused by 31. */
enum {
    CHURAWEL_FN_RESET = 13,                 /* log-in with the drive's own geometry */
    CHURAWEL_FN_OPEN = 15,
    CHURAWEL_FN_CLOSE = 16,
    CHURAWEL_FN_SEARCH_FIRST = 17,
    CHURAWEL_FN_SEARCH_NEXT = 18,
    CHURAWEL_FN_DELETE = 19,
    CHURAWEL_FN_READ_SEQUENTIAL = 20,
    CHURAWEL_FN_WRITE_SEQUENTIAL = 21,
    CHURAWEL_FN_MAKE = 22,
    CHURAWEL_FN_RENAME = 23,
    CHURAWEL_FN_WRITE_PROTECT = 28,
    CHURAWEL_FN_ATTRIBUTES = 30,
    CHURAWEL_FN_USER = 32,                  /* the parameter is the code, 255 to ask for it */
    CHURAWEL_FN_READ_RANDOM = 33,
    CHURAWEL_FN_WRITE_RANDOM = 34,
    CHURAWEL_FN_SIZE = 35,
    CHURAWEL_FN_SET_RANDOM = 36,
    CHURAWEL_FN_RESET_DRIVE = 37,           /* as 13 */
    CHURAWEL_FN_WRITE_ZERO_FILL = 40,       /* as 34, but a block given for the first time is first filled with zeros */
    CHURAWEL_FN_READ_SEVERAL = 220,         /* as 20 for k records, 1..16: the parameter is k, the buffer k times 128 bytes */
    CHURAWEL_FN_WRITE_SEVERAL = 221         /* as 21, likewise */
};

/*
 * The numbers of refusal, in the order in which the tests are made. Success is a directory code 0..3 for 15, 16, 17, 18
 * and 22, the user code 0..15 for 32 with parameter 255, and 0 for every other function. A call of several records that stops
 * has the number that stopped it, and what was done before the stop stays done; it is a refusal where the value is 0.
 */
enum {
    CHURAWEL_REFUSED_NOT_SERVED = 31,       /* a function that is not served */
    CHURAWEL_REFUSED_CLOSED = 32,           /* geometry outside the rules, or (not log-in) closed state */
    CHURAWEL_REFUSED_VOLUME_LENGTH = 33,    /* length of volume */
    CHURAWEL_REFUSED_FCB_LENGTH = 34,       /* control block not 36 */
    CHURAWEL_REFUSED_COUNT = 46,            /* several records: not 1..16 of them */
    CHURAWEL_REFUSED_BUFFER_LENGTH = 35,    /* transfer buffer not 128 (several records: not 128 for each) */
    CHURAWEL_REFUSED_DRIVE_CODE = 42,       /* dr not 0 or 1 (search: 63 also) */
    CHURAWEL_REFUSED_USER_CODE = 44,        /* user 16..254 */
    CHURAWEL_REFUSED_NAME = 39,             /* a name outside the byte rule */
    CHURAWEL_REFUSED_UNTYPEABLE = 45,       /* make, rename: a (new) name that can't be typed */
    CHURAWEL_REFUSED_POSITION = 40,         /* ex, s2 or cr too large where used */
    CHURAWEL_REFUSED_BEYOND = 6,            /* random: r2 not 0; sequential reads and writes: position 65,536 */
    CHURAWEL_REFUSED_BAD_SLOT = 36,         /* log-in only: a slot is bad; the lowest such slot is the value */
    CHURAWEL_REFUSED_PROTECTED = 37,        /* protected: delete, make, rename, attributes, writes */
    CHURAWEL_REFUSED_NO_MATCH = 255,        /* no match, no search open, or (make) no slot is empty */
    CHURAWEL_REFUSED_NO_FILE = 3,           /* reads, writes: the user has no entry of that name */
    CHURAWEL_REFUSED_READ_ONLY = 38,        /* writes, rename, delete: an entry is read-only */
    CHURAWEL_REFUSED_EXISTS = 43,           /* make, rename: the (new) name exists */
    CHURAWEL_REFUSED_NO_GROUP = 4,          /* random read: the group has no entry */
    CHURAWEL_REFUSED_ABSENT = 1,            /* reads: record not present */
    CHURAWEL_REFUSED_OUTSIDE = 41,          /* reads, writes: the map names a block outside the data blocks */
    CHURAWEL_REFUSED_NO_SLOT = 5,           /* writes: a group is missing and no slot is empty */
    CHURAWEL_REFUSED_NO_BLOCK = 2           /* writes: a block is needed and none is free */
};

/*
 * How the records of a volume lie: one behind the other, T times B bytes; or as on an eight-inch floppy, in an image of 256,256
 * bytes, which B 1,024, T 243 and D 2 alone can have. Any other number, and the second with other B, T or D, is 32.
 */
enum {
    CHURAWEL_STRAIGHT = 0,
    CHURAWEL_EIGHT_INCH = 1
};

/* The length of a drive for T blocks: 64 bytes up to 256 of them, 544 above. */
static inline size_t churawel_drive_bytes(uint32_t blocks)
{
    return blocks > 256 ? CHURAWEL_WIDE_DRIVE_BYTES : CHURAWEL_DRIVE_BYTES;
}

/*
 * Logs a volume in: B bytes a block, T blocks, the first D of them directory, and the placing. B is 1,024, 2,048 or 4,096 and T is
 * 2 to 256; or B is 2,048 or 4,096 and T is 257 to 4,096, at most 8 MiB in all; D is 1 to 16 and below T. The placing is one of the
 * two above; any other number, and the second with other B, T or D, is 32. Accepted: 0, with the number of free blocks as the value,
 * and the drive's bytes are the state that calls take. Refused (32, 33, 36): the drive becomes zeros, which count as closed. A drive
 * that has not the length for this T, whatever T is: 32, and nothing changes.
 */
uint32_t churawel_log_in(
    uint32_t block_bytes, uint32_t blocks, uint32_t directory_blocks, uint32_t placing,
    const uint8_t *volume, size_t volume_bytes,
    uint8_t *drive, size_t drive_bytes);

/*
 * Does one call. What the function does not use of volume, control block and buffer is neither read nor changed, and may
 * have any length. A drive that has not the length for its T, or whose bytes are no open state: 32, and nothing changes. A
 * refusal changes nothing, but a refused log-in (13, 37) leaves zeros, as many as before.
 */
uint32_t churawel_call(
    uint8_t function, uint8_t parameter,
    uint8_t *drive, size_t drive_bytes,
    uint8_t *volume, size_t volume_bytes,
    uint8_t *fcb, size_t fcb_bytes,
    uint8_t *buffer, size_t buffer_bytes);

/*
 * Does one call with at most so many stores, and leaves what a crash would: to try what is on the disk if the emulator is
 * closed halfway. A changing call (19, 21, 22, 23, 30, 34, 40, 221) stores whole records of 128 bytes, data records first and
 * then directory records in rising order, 221 as its single writes one after another; any other function stores nothing. The
 * number is the call's refusal, 0 where it is not refused (also where 221 stops after its first record), and the value is how
 * many stores were made. The machine is gone: the drive becomes zeros, after a refusal too, and control block and buffer stay as
 * they are. A drive that has not the length for its T: 32, and nothing changes.
 */
uint32_t churawel_cut(
    uint32_t most, uint8_t function, uint8_t parameter,
    uint8_t *drive, size_t drive_bytes,
    uint8_t *volume, size_t volume_bytes,
    const uint8_t *fcb, size_t fcb_bytes,
    const uint8_t *buffer, size_t buffer_bytes);

/*
 * Log-in's answer, with no drive left, and why: 0 with the number of free blocks, 32, 33, or 36 with the lowest bad slot.
 * After 36 the fault is:
 *    0         the first of the rules below that the slot breaks
 *    1         the place of its map; for rules 8, 9 and 10
 *    2 to 3    the block; for rules 8, 9 and 10
 *    4 to 5    the bad slot
 *    6 to 7    the other slot, always a lower one; for rules 10 and 11
 *    8 to 19   bytes 0 to 11 of the bad slot's entry as they stand: user, name and type, top bits too
 *   20 to 31   the same of the other slot; for rules 10 and 11
 * Numbers have their low byte first. What a rule has not is 0, and after any other answer than 36 all 32 bytes are.
 * A fault of another length: 35, before all others, and nothing changes.
 * The rules: 1 user above 15; 2 a byte of the name; 3 a top bit on another byte than 9 and 10; 4 ex above 31; 5 s1 not 0;
 * 6 s2 above 15; 7 rc above 128; 8 a block outside D to T-1; 9 a block that is in a lower place too; 10 a block that is in
 * a lower slot too; 11 a lower slot of the same user, name and group.
 */
uint32_t churawel_fault(
    uint32_t block_bytes, uint32_t blocks, uint32_t directory_blocks, uint32_t placing,
    const uint8_t *volume, size_t volume_bytes,
    uint8_t *fault, size_t fault_bytes);

/*
 * The next file at or after slot `from`, in the lister's order. Found: 0, with the file's lowest slot as the value, and the
 * line is: byte 0 the user; 1 to 11 name and type without top bits; 12 is 1 if an entry is read-only, 13 if one is a system
 * file; 14 to 17 its records and 18 to 19 its blocks, low byte first; four zeros. No such file: 255. A drive that counts as
 * closed: 32; another length of volume: 33; a line that is not 24 bytes: 35. A refusal changes nothing.
 */
uint32_t churawel_file(
    const uint8_t *drive, size_t drive_bytes,
    const uint8_t *volume, size_t volume_bytes,
    uint32_t from,
    uint8_t *file, size_t file_bytes);

/* The numbers of a shelf's answer; where the volume was counted, the value is what log-in answered, 0 or 32, 33, 36. */
enum {
    CHURAWEL_SHELF_COUNTED = 0,
    CHURAWEL_SHELF_FULL = 47,               /* the 65,536th volume */
    CHURAWEL_SHELF_OUTSIDE = 32             /* a shelf that is not 64 bytes, or that has a figure of 2^48 or more; asked before 47 */
};

/*
 * Puts a volume on a shelf: what up to 65,535 volumes hold together. The shelf's 64 bytes are eight numbers of eight bytes, low byte
 * first: volumes refused at log-in; over the others files, entries, records present, blocks held, blocks free, and waste (blocks held
 * times records a block, less records present); volumes seen. 64 zero bytes are an empty shelf. A volume that log-in refuses is
 * counted as refused. Geometries may differ from volume to volume. Where the answer is not 0 nothing changes.
 */
uint32_t churawel_shelf(
    uint8_t *shelf, size_t shelf_bytes,
    uint32_t block_bytes, uint32_t blocks, uint32_t directory_blocks, uint32_t placing,
    const uint8_t *volume, size_t volume_bytes);

/*
 * Copies the first volume to the second in good order: files by their lowest slot, a file's entries by rising extent, slots from 0 on,
 * blocks numbered upward from D as they come; every slot and block that holds nothing is all E5H. Both volumes have this geometry. Done:
 * 0, with the number of free blocks as the value. Refused as churawel_log_in refuses the first (32, 33, 36 with the lowest bad slot as
 * the value), then by 33 where the second has another length: nothing changes. The first is only read. Of an eight-inch image's second
 * the reserved tracks and the last six logical records stay as they are.
 */
uint32_t churawel_fresh_copy(
    uint32_t block_bytes, uint32_t blocks, uint32_t directory_blocks, uint32_t placing,
    const uint8_t *first, size_t first_bytes,
    uint8_t *second, size_t second_bytes);

/* The numbers that the edition desk refuses by, beside those of the calls. */
enum {
    CHURAWEL_DESK_CONTENTS = 50,            /* contents against the rules, a listed record that cannot be read, no such chapter */
    CHURAWEL_DESK_NEITHER = 51,             /* a siglum in neither list */
    CHURAWEL_DESK_LISTS = 52                /* a list's length no multiple of 32 */
};

/*
 * Replaces one siglum by another in one chapter of the collation file that the control block names; its bytes behind the name are not
 * looked at. A siglum is byte 0 and 256 times byte 1 of a reading record. Record 0 of the file has its contents: sixteen places of
 * chapter, first record, count and zero, 16 bits each, low byte first; used ones first, their bodies from record 1 on without gaps.
 * Done: 0, with the number of matching records as the value; bytes 0 and 1 of these are the new siglum, and no other byte is
 * changed. Refused, nothing is: 32, 33, 34, 42, 39, 37, 3, 38, then 4, 1 and 41 as of a random read of record 0, then 50. The drive stays
 * as it is. Less than 80 KiB of stack are used.
 */
uint32_t churawel_replace_siglum(
    const uint8_t *drive, size_t drive_bytes,
    uint8_t *volume, size_t volume_bytes,
    const uint8_t *fcb, size_t fcb_bytes,
    uint16_t chapter, uint16_t old_siglum, uint16_t new_siglum);

/*
 * Says which manuscript a siglum means, by the edition's own list or, if that lacks it, by the house list; either may be empty.
 * A list has lines of 32 bytes, two of siglum and thirty of name, and the first match counts. The number is 0, 52 (a length that is
 * no multiple of 32, or of 4 GiB or more) or 51 (in neither list); after 0, CHURAWEL_LIST says which list has it, 0 own or 1 house,
 * and CHURAWEL_NAME_AT the byte of that list where the thirty bytes of the name begin. After a refusal both are 0.
 */
uint64_t churawel_manuscript(
    uint16_t siglum,
    const uint8_t *own, size_t own_bytes,
    const uint8_t *house, size_t house_bytes);

/* The memory calls and load, by their names in the manual; churawel_memory serves 53 to 58, churawel_load is 59. */
enum {
    CHURAWEL_FN_GET_MAX_MEM = 53,
    CHURAWEL_FN_GET_ABS_MAX = 54,
    CHURAWEL_FN_ALLOC_MEM = 55,
    CHURAWEL_FN_ALLOC_ABS_MEM = 56,
    CHURAWEL_FN_FREE_MEM = 57,
    CHURAWEL_FN_FREE_ALL_MEM = 58,
    CHURAWEL_FN_PROGRAM_LOAD = 59
};

/* Their numbers of refusal, in the order in which the tests are made. Success is 0. */
enum {
    CHURAWEL_REFUSED_RULES = 65,            /* pieces that overlap or leave the memory, regions that overlap or lie in no one piece */
    CHURAWEL_REFUSED_HEADER = 60,           /* load: a group's type not 1..9 or given twice, no code, too small for the base page */
    CHURAWEL_REFUSED_IMAGE = 61,            /* load: the image is shorter than its groups */
    CHURAWEL_REFUSED_NO_PLACE = 63,         /* 55, 56, load: too few of the eight region places are left */
    CHURAWEL_REFUSED_NO_ROOM = 62,          /* 53 to 56, load: no such room exists */
    CHURAWEL_REFUSED_BAD_FREE = 64          /* 57: 0 paragraphs, or not a region's start or end */
};

/*
 * Does a memory call in a memory of so many bytes. The table is 66 bytes: the number of pieces of memory that are there, the number of
 * regions that were granted, eight pieces, eight regions, each a start and a length in paragraphs of 16 bytes; numbers have 16 bits, low
 * byte first, but for the first two. What stands behind these numbers is not looked at; 55 to 58 write the table anew when they
 * succeed. The memory control block is five bytes: M-Base, M-Length, M-Ext. 53 to 57 write it when they succeed, and M-Ext becomes 0; 58
 * is lent none, and looks at none. A refusal changes nothing. In this order: a function that is not one of these, 31; a control block
 * of another length, 34; a table of another length, with a number above 8 in byte 0 or 1, or against the rules, 65; then the others.
 *   53 the longest free run, lowest of equals, cut to M-Length     54 is the region M-Base, M-Length free?
 *   55 grants M-Length paragraphs at the lowest start with room    56 grants the region M-Base, M-Length
 *   57 frees a region, its start or its end; M-Ext FFH: all        58 frees all regions
 */
uint32_t churawel_memory(
    uint8_t function,
    uint8_t *mcb, size_t mcb_bytes,
    uint8_t *table, size_t table_bytes,
    size_t memory_bytes);

/*
 * Loads the CMD file that the control block names, function 59: grants its groups, and lays its image and the base page into the
 * memory. Done: 0, with the paragraph of the base page as the value; the table has the groups' regions behind the others, and the memory
 * has changed in these regions alone. Refused: nothing changes. In this order: what a random read of record 0 refuses, then function 35,
 * then a random read of each record of the file; 65, 60, 61, 63, 62. Of the control block only dr and name are looked at.
 */
uint32_t churawel_load(
    const uint8_t *drive, size_t drive_bytes,
    const uint8_t *volume, size_t volume_bytes,
    const uint8_t *fcb, size_t fcb_bytes,
    uint8_t *table, size_t table_bytes,
    uint8_t *memory, size_t memory_bytes);

/* The numbers by which a hex text is refused: those of its lines, first line first, then the others. */
enum {
    CHURAWEL_REFUSED_HEX_DIGITS = 70,       /* a line with another character than 0 to 9 and A to F, or that is short */
    CHURAWEL_REFUSED_HEX_SUM = 71,          /* its bytes, checksum included, don't add up to 0 modulo 256 */
    CHURAWEL_REFUSED_HEX_OTHER_TYPE = 72,   /* its type is not 00, 01 or 81 to 84 */
    CHURAWEL_REFUSED_HEX_BEYOND = 73,       /* a byte beyond address FFFFH */
    CHURAWEL_REFUSED_HEX_NO_END = 74,       /* no line of type 01 */
    CHURAWEL_REFUSED_HEX_NO_CODE = 75,      /* no byte of code */
    CHURAWEL_REFUSED_HEX_ROOM = 76          /* the output buffer is too short */
};

/*
 * Makes a CMD file of a hex text (GENCMD, for lines of type 00, 01 and 81 to 84), in the first bytes of `out`: 0, with the
 * file's length in the high 32 bits, a multiple of 128. Bytes behind the file stay as they were. A text that is refused: 70 to
 * 76, the length is 0, and every byte of `out` stays. No file has more than CHURAWEL_CMD_MOST bytes.
 */
uint64_t churawel_gencmd(
    const uint8_t *text, size_t text_bytes,
    uint8_t *out, size_t out_bytes);

/* Did the call of this function succeed? A number alone does not say so: 2 is a directory code of 15 and a refusal of 34. */
static inline int churawel_succeeded(uint8_t function, uint32_t answer)
{
    switch (function) {
    case CHURAWEL_FN_OPEN:
    case CHURAWEL_FN_CLOSE:
    case CHURAWEL_FN_SEARCH_FIRST:
    case CHURAWEL_FN_SEARCH_NEXT:
    case CHURAWEL_FN_MAKE:
        return CHURAWEL_NUMBER(answer) <= 3;
    case CHURAWEL_FN_USER:
        return CHURAWEL_NUMBER(answer) <= 15;
    case CHURAWEL_FN_READ_SEVERAL:
    case CHURAWEL_FN_WRITE_SEVERAL:
        return CHURAWEL_VALUE(answer) > 0;
    default:
        return CHURAWEL_NUMBER(answer) == 0;
    }
}

/*
 * What a program of CP/M-86 finds in AL: of reads and writes the number itself, where anything but 0 is a failure; of every
 * other call its code where it succeeded, and 255 where it was refused, since that is what programs compare with.
 */
static inline uint8_t churawel_al(uint8_t function, uint32_t answer)
{
    switch (function) {
    case CHURAWEL_FN_READ_SEQUENTIAL:
    case CHURAWEL_FN_WRITE_SEQUENTIAL:
    case CHURAWEL_FN_READ_RANDOM:
    case CHURAWEL_FN_WRITE_RANDOM:
    case CHURAWEL_FN_WRITE_ZERO_FILL:
    case CHURAWEL_FN_READ_SEVERAL:
    case CHURAWEL_FN_WRITE_SEVERAL:
        return (uint8_t)CHURAWEL_NUMBER(answer);
    default:
        return churawel_succeeded(function, answer) ? (uint8_t)CHURAWEL_NUMBER(answer) : 255;
    }
}

#ifdef __cplusplus
}
#endif

#endif
