// The replacement pass: a search, and for each file open, size, a random read of every record, a random write of those that
// have the siglum (about one in eight), and close; again from the start until 40,000 calls are made.
#include "pass.h"

#include <string.h>

enum { OPEN = 15, CLOSE = 16, FIRST = 17, NEXT = 18, READ = 33, WRITE = 34, SIZE = 35 };

struct pass {
    const struct side *side;
    struct shelf *shelf;
    struct desk *desk;
    int check;
    uint32_t calls;
    uint64_t sum;
};

static uint64_t mix(uint64_t sum, const uint8_t *bytes, size_t n)
{
    for (size_t i = 0; i < n; i++)
        sum = (sum ^ bytes[i]) * 0x100000001B3u;
    return sum;
}

static uint32_t ask(struct pass *p, uint8_t function)
{
    struct desk *d = p->desk;
    uint32_t answer = p->side->call(function, 0, d->drive, drive_bytes(p->shelf), p->shelf->volume, p->shelf->bytes, d->fcb,
                                    sizeof d->fcb, d->buffer, sizeof d->buffer);
    p->calls++;
    p->sum += answer;
    if (p->check) {
        p->sum = mix(p->sum, d->drive, drive_bytes(p->shelf));
        p->sum = mix(p->sum, d->fcb, sizeof d->fcb);
        p->sum = mix(p->sum, d->buffer, sizeof d->buffer);
    }
    return answer;
}

static int more(const struct pass *p)
{
    return p->calls < PASS_CALLS;
}

static void search_files(struct pass *p)
{
    memset(p->desk->fcb, 0, sizeof p->desk->fcb);
    memcpy(p->desk->fcb + 1, "BAND????TXT", NAME);
    uint32_t answer = ask(p, FIRST);
    while (more(p) && answer < 4)
        answer = ask(p, NEXT);
}

static void replace_in(struct pass *p, unsigned file)
{
    uint8_t *fcb = p->desk->fcb, *buffer = p->desk->buffer;
    memset(fcb, 0, sizeof p->desk->fcb);
    band_name(fcb + 1, file);
    ask(p, OPEN);
    if (more(p))
        ask(p, SIZE);
    uint32_t records = fcb[33] | (uint32_t)fcb[34] << 8 | (uint32_t)fcb[35] << 16;
    for (uint32_t n = 0; n < records && more(p); n++) {
        fcb[33] = (uint8_t)n;
        fcb[34] = (uint8_t)(n >> 8);
        fcb[35] = 0;
        ask(p, READ);
        if (buffer[0] % 8 == 3 && more(p)) {
            buffer[0] ^= 0x40;
            buffer[1]++;
            ask(p, WRITE);
        }
    }
    if (more(p))
        ask(p, CLOSE);
}

uint64_t replacement_pass(const struct side *side, struct shelf *shelf, struct desk *desk, int check)
{
    struct pass p = {side, shelf, desk, check, 0, 0};
    while (more(&p)) {
        search_files(&p);
        for (unsigned file = 1; file <= FILES && more(&p); file++)
            replace_in(&p, file);
    }
    return check ? mix(p.sum, shelf->volume, shelf->bytes) : p.sum;
}
