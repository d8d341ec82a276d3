/* The memory calls and load of the seam's archive behind a pipe (../pipe.h): compare.py writes what a call is lent, and reads what it left.

   The head: 0 for churawel_log_in, 1 for churawel_memory or 2 for churawel_load, the function (log-in: the placing), and for log-in
   B/1,024 and D; then a number of 32 bits (log-in: T; memory: the bytes of the memory). The slices: drive, volume, control block (of
   memory or of a file), table, memory. */
#include "../pipe.h"
#include "churawel.h"

enum { DRIVE, VOLUME, CONTROL, TABLE, MEMORY, SLICES };
enum { LOG_IN, MEMORY_CALL, LOAD };
enum { HEAD = 8 };

static uint32_t answer_of(const uint8_t *head, struct lent *x)
{
    uint32_t n = number(head + 4);
    switch (head[0]) {
    case LOG_IN:
        return churawel_log_in(1024u * head[2], n, head[3], head[1], x[VOLUME].bytes, x[VOLUME].length, x[DRIVE].bytes,
                               x[DRIVE].length);
    case MEMORY_CALL:
        return churawel_memory(head[1], x[CONTROL].bytes, x[CONTROL].length, x[TABLE].bytes, x[TABLE].length, n);
    default:
        return churawel_load(x[DRIVE].bytes, x[DRIVE].length, x[VOLUME].bytes, x[VOLUME].length, x[CONTROL].bytes,
                             x[CONTROL].length, x[TABLE].bytes, x[TABLE].length, x[MEMORY].bytes, x[MEMORY].length);
    }
}

int main(void)
{
    for (;;)
        serve_one(HEAD, SLICES, answer_of);
}
