/* The seam's archive behind a pipe, so that a test is built for the machine that it runs on, and the archive, which is for x86-64,
   may run under an emulator.

   A request: a head, whose meaning is the test's own; the lengths of the slices that are lent, 32 bits each, low byte first; then their
   bytes. The reply: the answer, and which of the slices (from 1 on, 0 for none) has a byte before or behind it that was changed, 32 bits
   each; then the slices again. */
#include <stdint.h>
#include <stdio.h>
#include <stdlib.h>
#include <string.h>

enum { LENT_MOST = 5, HEAD_MOST = 20, GUARD = 64, GUARD_BYTE = 0xA7 };

/* Lent bytes with others before and behind them, which nobody may change. */
struct lent {
    uint8_t *all, *bytes;
    size_t length;
};

/* The call that the head asks for, over these slices. */
typedef uint32_t answer_to(const uint8_t *head, struct lent *x);

static uint32_t number(const uint8_t *at)
{
    return at[0] | (uint32_t)at[1] << 8 | (uint32_t)at[2] << 16 | (uint32_t)at[3] << 24;
}

static void put_number(uint32_t x)
{
    uint8_t bytes[4] = {x & 255, x >> 8 & 255, x >> 16 & 255, x >> 24};
    fwrite(bytes, 1, 4, stdout);
}

static void take(void *to, size_t n)
{
    if (fread(to, 1, n, stdin) != n)
        exit(feof(stdin) ? 0 : 1);
}

static struct lent read_lent(size_t length)
{
    struct lent x = {malloc(length + 2 * GUARD), NULL, length};
    if (x.all == NULL)
        exit(1);
    x.bytes = x.all + GUARD;
    memset(x.all, GUARD_BYTE, GUARD);
    memset(x.bytes + length, GUARD_BYTE, GUARD);
    take(x.bytes, length);
    return x;
}

static int is_guarded(const struct lent *x)
{
    for (size_t i = 0; i < GUARD; i++)
        if (x->all[i] != GUARD_BYTE || x->bytes[x->length + i] != GUARD_BYTE)
            return 0;
    return 1;
}

/* One request: a head of so many bytes, and so many slices. */
static void serve_one(size_t head_bytes, uint32_t slices, answer_to *answer_of)
{
    uint8_t request[HEAD_MOST + 4 * LENT_MOST];
    struct lent x[LENT_MOST];
    uint32_t touched = 0;
    take(request, head_bytes + 4 * slices);
    for (uint32_t i = 0; i < slices; i++)
        x[i] = read_lent(number(request + head_bytes + 4 * i));
    put_number(answer_of(request, x));
    for (uint32_t i = slices; i > 0; i--)
        if (!is_guarded(&x[i - 1]))
            touched = i;
    put_number(touched);
    for (uint32_t i = 0; i < slices; i++) {
        fwrite(x[i].bytes, 1, x[i].length, stdout);
        free(x[i].all);
    }
    fflush(stdout);
}
