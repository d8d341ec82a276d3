/* The seam's archive behind a pipe (../pipe.h): the model writes what a call is lent, and reads what it left.

   The head: 0 for churawel_log_in, 1 for churawel_call, 2 for churawel_fault, 3 for churawel_file, 4 for churawel_cut, 5 for
   churawel_shelf, 6 for churawel_fresh_copy, 7 for churawel_replace_siglum or 8 for churawel_manuscript, function, parameter, one byte
   unused; then B, T, D and placing, 32 bits each (in B's place churawel_file has the slot and churawel_cut the most stores; a replacement
   has chapter, old and new siglum there, a manuscript its siglum in B's place). The slices: drive, volume, control block, buffer. What
   churawel_file and churawel_fault lay is the buffer, and so is the second volume of a copy; the shelf stands in the drive's place; a
   manuscript has its lists as volume and control block, and its answer's high half is laid into the buffer. */
#include "../pipe.h"
#include "churawel.h"

enum { DRIVE, VOLUME, CONTROL, BUFFER, SLICES };
enum { HEAD = 20 };

static uint32_t answer_of(const uint8_t *head, struct lent *x)
{
    uint8_t *drive = x[DRIVE].bytes, *volume = x[VOLUME].bytes;
    uint8_t *control = x[CONTROL].bytes, *buffer = x[BUFFER].bytes;
    if (head[0] == 0)
        return churawel_log_in(number(head + 4), number(head + 8), number(head + 12), number(head + 16), volume, x[VOLUME].length,
                               drive, x[DRIVE].length);
    if (head[0] == 2)
        return churawel_fault(number(head + 4), number(head + 8), number(head + 12), number(head + 16), volume, x[VOLUME].length,
                              buffer, x[BUFFER].length);
    if (head[0] == 3)
        return churawel_file(drive, x[DRIVE].length, volume, x[VOLUME].length, number(head + 4), buffer, x[BUFFER].length);
    if (head[0] == 4)
        return churawel_cut(number(head + 4), head[1], head[2], drive, x[DRIVE].length, volume, x[VOLUME].length, control,
                            x[CONTROL].length, buffer, x[BUFFER].length);
    if (head[0] == 5)
        return churawel_shelf(drive, x[DRIVE].length, number(head + 4), number(head + 8), number(head + 12), number(head + 16), volume,
                              x[VOLUME].length);
    if (head[0] == 6)
        return churawel_fresh_copy(number(head + 4), number(head + 8), number(head + 12), number(head + 16), volume, x[VOLUME].length,
                                   buffer, x[BUFFER].length);
    if (head[0] == 7)
        return churawel_replace_siglum(drive, x[DRIVE].length, volume, x[VOLUME].length, control, x[CONTROL].length,
                                       (uint16_t)number(head + 4), (uint16_t)number(head + 8), (uint16_t)number(head + 12));
    if (head[0] == 8) {
        uint64_t told = churawel_manuscript((uint16_t)number(head + 4), volume, x[VOLUME].length, control, x[CONTROL].length);
        for (size_t i = 0; i < x[BUFFER].length; i++)
            buffer[i] = (uint8_t)(told >> (32 + 8 * i));
        return (uint32_t)told;
    }
    return churawel_call(head[1], head[2], drive, x[DRIVE].length, volume, x[VOLUME].length, control, x[CONTROL].length, buffer,
                         x[BUFFER].length);
}

int main(void)
{
    for (;;)
        serve_one(HEAD, SLICES, answer_of);
}
