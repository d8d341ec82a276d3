// Request (x): sigla by column. Which bytes a replacement changes, and where a name stands in its list, are written down here by
// hand.
#include "churawel.h"
#include "desk.h"

#include <string.h>

enum { CHAPTER = 8, PLACES = 16, LINE = 32 };

// Sigla as C hands them over, byte 0 low.
#define SIGLUM(text) ((uint16_t)((uint8_t)(text)[0] | (uint8_t)(text)[1] << 8))

static const struct geometry G = {1024, 12, 1};

#define SIGLA "SIGLA   TXT"
#define OTHER "OTHER   TXT"

// Block b begins at record 8b. SIGLA has records 0 to 9 in blocks 2 and 3, and record 128 in block 4; OTHER is read-only.
static const struct entry files[] = {{.slot = 0, .name = SIGLA, .rc = 10, .map = {2, 3}},
                                     {.slot = 1, .name = "OTHER   \xD4XT", .rc = 8, .map = {5}},
                                     {.slot = 2, .name = SIGLA, .ex = 1, .rc = 1, .map = {4}},
                                     {.slot = 3, .user = 1, .name = SIGLA, .rc = 8, .map = {6}}};

// On V, SIGLA alone, with records 0 to 299 in blocks 2 to 39.
static const struct entry long_file[] = {
    {.slot = 0, .name = SIGLA, .rc = 128, .map = {2, 3, 4, 5, 6, 7, 8, 9, 10, 11, 12, 13, 14, 15, 16, 17}},
    {.slot = 1, .name = SIGLA, .ex = 1, .rc = 128, .map = {18, 19, 20, 21, 22, 23, 24, 25, 26, 27, 28, 29, 30, 31, 32, 33}},
    {.slot = 5, .name = SIGLA, .ex = 2, .rc = 44, .map = {34, 35, 36, 37, 38, 39}}};

static uint8_t *record_at(uint8_t *volume, unsigned n)
{
    return volume + (2 * 8 + n) * RECORD;
}

static void lay_place(unsigned i, uint16_t chapter, uint16_t first, uint16_t count, uint16_t zero)
{
    const uint16_t numbers[] = {chapter, first, count, zero};
    for (size_t k = 0; k < COUNT(numbers); k++) {
        record_at(now.volume, 0)[i * CHAPTER + 2 * k] = (uint8_t)numbers[k];
        record_at(now.volume, 0)[i * CHAPTER + 2 * k + 1] = (uint8_t)(numbers[k] >> 8);
    }
}

static void no_places(void)
{
    for (unsigned i = 0; i < PLACES; i++)
        lay_place(i, 0, 0, 0, 0);
}

// Chapter 5 is records 1 to 4, chapter 300 records 5 to 9. "Ab" stands in records 2, 4 and 7, and "Ac" in 3; the record of user 1 has
// it too.
static void collation(void)
{
    logged_in("log-in of a collation file: 6 free", G, 6, files, COUNT(files));
    no_places();
    lay_place(0, 5, 1, 4, 0);
    lay_place(1, 300, 5, 5, 0);
    for (unsigned n = 1; n < 10; n++)
        memcpy(record_at(now.volume, n), n == 3 ? "Ac" : n == 2 || n == 4 || n == 7 ? "Ab" : "Xy", 2);
    memcpy(now.volume + 6 * 1024, "Ab", 2);
    block_for(SIGLA);
    memset(now.fcb + 12, 0xFF, 24);
    as_it_stands();
}

static uint32_t replace(uint16_t chapter, const char *old, const char *new_one)
{
    return churawel_replace_siglum(now.drive, lent.drive, now.volume, lent.volume, now.fcb, lent.fcb, chapter, SIGLUM(old),
                                   SIGLUM(new_one));
}

// One case: the answer, and every byte as in `want`.
static void replaces(const char *what, uint16_t chapter, const char *old, const char *new_one, uint32_t answer)
{
    uint32_t said = replace(chapter, old, new_one);
    verdict(what, said == answer && same_bytes());
}

// One case: "Ab" by "Zz" in chapter 5 is refused, and nothing changes.
static void refused(const char *what, uint32_t number)
{
    as_it_stands();
    replaces(what, 5, "Ab", "Zz", number);
}

static void in_one_chapter(void)
{
    collation();
    memcpy(record_at(want.volume, 2), "Zz", 2);
    memcpy(record_at(want.volume, 4), "Zz", 2);
    replaces("two records of chapter 5 match, and no other byte is changed", 5, "Ab", "Zz", 2u << 16);
    memcpy(record_at(want.volume, 2), "Ab", 2);
    memcpy(record_at(want.volume, 4), "Ab", 2);
    replaces("back again: the old bytes", 5, "Zz", "Ab", 2u << 16);
    replaces("a siglum that no record of the chapter has: 0 match", 300, "Ac", "Zz", 0);
    replaces("a siglum by itself is counted", 5, "Ab", "Ab", 2u << 16);
    replaces("a siglum with its bytes exchanged is another", 5, "bA", "Zz", 0);
    memcpy(record_at(want.volume, 7), "\xFF\x01", 2);
    replaces("a chapter above 255, and bytes that are no letters", 300, "Ab", "\xFF\x01", 1u << 16);
    now.fcb[0] = want.fcb[0] = 1;
    memcpy(record_at(want.volume, 7), "Ab", 2);
    replaces("dr 1 is taken too", 300, "\xFF\x01", "Ab", 1u << 16);
}

// Chapter 5 is records 1 to 257, chapter 6 records 258 to 299. "Ab" stands at the ends of entries and chapters.
static const unsigned with_ab[] = {127, 128, 255, 256, 257, 258, 299};
enum { AB_IN_5 = 5 };

static void lay_siglum(uint8_t *volume, size_t from, size_t to, const char *siglum)
{
    for (size_t k = from; k < to; k++)
        memcpy(record_at(volume, with_ab[k]), siglum, 2);
}

static void over_entries(void)
{
    logged_in("log-in of a collation file in three entries: 1 free", V, 1, long_file, COUNT(long_file));
    no_places();
    lay_place(0, 5, 1, 257, 0);
    lay_place(1, 6, 258, 42, 0);
    for (unsigned n = 1; n < 300; n++)
        memcpy(record_at(now.volume, n), "Xy", 2);
    lay_siglum(now.volume, 0, COUNT(with_ab), "Ab");
    block_for(SIGLA);
    as_it_stands();
    lay_siglum(want.volume, 0, AB_IN_5, "Zz");
    replaces("257 records in three entries: five match, and no other byte is changed", 5, "Ab", "Zz", 5u << 16);
    lay_siglum(want.volume, AB_IN_5, COUNT(with_ab), "Yy");
    replaces("a chapter from record 258 on: two match", 6, "Ab", "Yy", 2u << 16);
    lay_siglum(want.volume, 0, AB_IN_5, "Ab");
    replaces("back again in three entries: the old bytes", 5, "Zz", "Ab", 5u << 16);
    lay_place(1, 6, 2, 42, 0);
    refused("a first record that lacks its high byte: 50", 50);
    lay_place(1, 6, 258, 43, 0);
    refused("record 300, behind the last: 50", 50);
}

static void contents(void)
{
    collation();
    replaces("chapter 6 is not there: 50", 6, "Ab", "Zz", 50);
    replaces("chapter 0 never is: 50", 0, "Ab", "Zz", 50);
    lay_place(0, 5, 2, 4, 0);
    refused("a body that does not begin with record 1: 50", 50);
    lay_place(0, 5, 1, 4, 0);
    lay_place(1, 300, 6, 4, 0);
    refused("a gap before the second body: 50", 50);
    lay_place(1, 300, 4, 5, 0);
    refused("two bodies that meet: 50", 50);
    lay_place(1, 300, 5, 0, 0);
    refused("a count of 0: 50", 50);
    lay_place(1, 300, 5, 5, 1);
    refused("a fourth number that is not 0: 50", 50);
    lay_place(1, 5, 5, 5, 0);
    refused("a chapter twice: 50", 50);
    lay_place(1, 0, 5, 5, 0);
    refused("an unused place that is not all zero: 50", 50);
    lay_place(1, 0, 0, 0, 0);
    lay_place(2, 300, 5, 5, 0);
    refused("a used place behind an unused one: 50", 50);
    lay_place(1, 300, 5, 6, 0);
    lay_place(2, 0, 0, 0, 0);
    refused("a listed record of the other chapter that is not there: 50, and nothing is changed before", 50);
    lay_place(1, 300, 5, 65535, 0);
    refused("records from 65,536 on: 50", 50);
    lay_place(1, 300, 5, 124, 0);
    refused("records up to 128, of which some are not there: 50", 50);
}

static void files_own(void)
{
    collation();
    now.drive[7] = 1;
    refused("a protected drive: 37", 37);
    block_for(OTHER);
    refused("a read-only file on it: 37", 37);
    block_for("NOTHING TXT");
    refused("a file that is not there on it: 37", 37);
    now.drive[7] = 0;
    refused("a file that is not there: 3", 3);
    block_for(OTHER);
    refused("a read-only file: 38, before its contents are looked at", 38);
    block_for("SIGLA   ?XT");
    refused("a name with a wildcard: 39", 39);
    now.fcb[0] = 2;
    refused("dr 2, too: 42", 42);
    lent.fcb = 35;
    refused("a control block of 35 bytes, too: 34", 34);
    lent.volume--;
    refused("another length of volume, too: 33", 33);
    now.drive[24] = 1;
    refused("a drive that is no open state, too: 32", 32);
    collation();
    lent.drive--;
    refused("a drive of 63 bytes: 32", 32);
    collation();
    now.volume[2 * ENTRY + 9] |= 0x80;
    refused("a later entry that is read-only: 38", 38);
    now.volume[2 * ENTRY + 9] &= 0x7F;
    now.volume[15] = 0;
    refused("record 0 is not present: 1", 1);
    now.volume[15] = 10;
    now.volume[16] = 12;
    refused("record 0 in a block beyond the disk: 41", 41);
    now.volume[0] = 0xE5;
    refused("the group of record 0 has no entry: 4", 4);
}

// ---- which manuscript a siglum means
static uint8_t own[3 * LINE + GUARD], house[2 * LINE + GUARD];

static void lay_line(uint8_t *list, unsigned i, const char *siglum, char name)
{
    memcpy(list + i * LINE, siglum, 2);
    memset(list + i * LINE + 2, name, CHURAWEL_NAME_BYTES);
}

static void lists(void)
{
    lay_line(own, 0, "A ", 'a');
    lay_line(own, 1, "B ", 'b');
    lay_line(own, 2, "B ", 'c');
    lay_line(house, 0, "B ", 'd');
    lay_line(house, 1, "Ca", 'e');
}

// One case: the number, which list, where the name begins.
static void means(const char *what, const char *siglum, size_t own_bytes, size_t house_bytes, uint32_t number, uint32_t list,
                  size_t at)
{
    uint64_t told = churawel_manuscript(SIGLUM(siglum), own, own_bytes, house, house_bytes);
    as_it_stands();
    verdict(what, CHURAWEL_TOLD(told) == number && CHURAWEL_LIST(told) == list && CHURAWEL_NAME_AT(told) == at &&
                      told == ((uint64_t)at << 32 | (uint64_t)list << 16 | number));
}

static void manuscripts(void)
{
    lists();
    means("a siglum of the own list", "A ", 3 * LINE, 2 * LINE, 0, 0, 2);
    means("a siglum of both lists: the first line of the own list", "B ", 3 * LINE, 2 * LINE, 0, 0, LINE + 2);
    means("a siglum of the house list alone", "Ca", 3 * LINE, 2 * LINE, 0, 1, LINE + 2);
    means("without the own list the house list counts", "B ", 0, 2 * LINE, 0, 1, 2);
    means("a siglum in neither list: 51", "aC", 3 * LINE, 2 * LINE, 51, 0, 0);
    means("two empty lists: 51", "A ", 0, 0, 51, 0, 0);
    means("a name is not searched: 51", "aa", 3 * LINE, 2 * LINE, 51, 0, 0);
    means("an own list of 95 bytes: 52, though the siglum stands in it", "A ", 3 * LINE - 1, 2 * LINE, 52, 0, 0);
    means("a house list of 33 bytes: 52, though the own list has it", "A ", 3 * LINE, LINE + 1, 52, 0, 0);
    means("a list of 1 byte: 52, before 51", "zz", 1, 0, 52, 0, 0);
}

void sigla_by_column(void)
{
    in_one_chapter();
    over_entries();
    contents();
    files_own();
    manuscripts();
}
