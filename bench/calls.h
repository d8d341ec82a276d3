// The proved calls on the volume that is worked on, for pieces of work that are made of them.
#ifndef CALLS_H
#define CALLS_H

#include "churawel.h"
#include "jobs.h"

// Ends the benchmark where something that has to be done was refused.
void must(int good, const char *what);

void log_in_proved(void);

// One call with the desk's control block and buffer. It stands where it is counted, so that no second call is counted with it.
static inline uint32_t ask(uint8_t function)
{
    return churawel_call(function, 0, desk.drive, drive_bytes(&work), work.volume, work.bytes, desk.fcb, sizeof desk.fcb, desk.buffer,
                         sizeof desk.buffer);
}

// Which record the calls are about.
static inline void at(unsigned record)
{
    desk.fcb[33] = (uint8_t)record;
    desk.fcb[34] = (uint8_t)(record >> 8);
    desk.fcb[35] = 0;
}

#endif
