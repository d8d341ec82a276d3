// A fresh disk in plain C: the directory is searched from its start for the lowest slot of each entry's file, the entries are sorted by
// qsort, and blocks are copied as they come.
#include "plain.h"
#include "shelf.h"

#include <stdlib.h>
#include <string.h>

enum { EMPTY = 0xE5, SLOTS_MOST = 2048 };

struct item {
    uint32_t file, extent, slot;
};

static int by_file_and_extent(const void *a, const void *b)
{
    const struct item *x = a, *y = b;
    if (x->file != y->file)
        return x->file < y->file ? -1 : 1;
    return x->extent < y->extent ? -1 : x->extent > y->extent;
}

static int same_file(const uint8_t *a, const uint8_t *b)
{
    if (a[0] != b[0])
        return 0;
    for (int i = 1; i <= NAME; i++)
        if ((a[i] ^ b[i]) & 0x7F)
            return 0;
    return 1;
}

static uint32_t ordered(const uint8_t *first, uint32_t slots, struct item *items)
{
    uint32_t n = 0;
    for (uint32_t slot = 0; slot < slots; slot++) {
        const uint8_t *e = first + (size_t)slot * ENTRY;
        if (e[0] == EMPTY)
            continue;
        uint32_t file = 0;
        while (!same_file(first + (size_t)file * ENTRY, e))
            file++;
        items[n++] = (struct item){file, 32u * e[14] + e[12], slot};
    }
    qsort(items, n, sizeof *items, by_file_and_extent);
    return n;
}

uint32_t plain_fresh_copy(uint32_t block, uint32_t blocks, uint32_t directory, uint32_t placing, const uint8_t *first,
                          size_t first_bytes, uint8_t *second, size_t second_bytes)
{
    static struct item items[SLOTS_MOST];
    uint8_t drive[544];
    uint32_t answer = plain_log_in(block, blocks, directory, placing, first, first_bytes, drive, blocks > 256 ? 544 : 64);
    if ((answer & 0xFFFF) != 0)
        return answer;
    if (second_bytes != first_bytes)
        return 33;
    uint32_t count = ordered(first, directory * block / ENTRY, items), next = directory, width = blocks > 256 ? 2 : 1;
    memset(second, EMPTY, second_bytes);
    for (uint32_t k = 0; k < count; k++) {
        uint8_t *e = second + (size_t)k * ENTRY;
        memcpy(e, first + (size_t)items[k].slot * ENTRY, ENTRY);
        for (uint32_t at = MAP; at < ENTRY; at += width) {
            uint32_t old = e[at] + (width == 2 ? 256u * e[at + 1] : 0);
            if (old == 0)
                continue;
            memcpy(second + (size_t)next * block, first + (size_t)old * block, block);
            e[at] = (uint8_t)next;
            if (width == 2)
                e[at + 1] = (uint8_t)(next >> 8);
            next++;
        }
    }
    return answer;
}
