// The pieces of work that are measured, each with what goes before it.
#ifndef JOBS_H
#define JOBS_H

#include "shelf.h"

#include <stdint.h>

// The volume as it was laid out, the volume that is worked on, what is lent beside it, and a place for results.
extern struct shelf full, work;
extern struct desk desk;
extern volatile uint64_t sink;

// A piece of work: it is given the side, and how often to do it.
typedef void job(const struct side *, unsigned);

void pass_job(const struct side *side, unsigned times);
void log_in_job(const struct side *side, unsigned times);

// One call of this function.
extern uint8_t job_function;
void call_job(const struct side *side, unsigned times);

// Sixteen records by one call, and by sixteen calls.
void sixteen_job(const struct side *side, unsigned times);
void singles_job(const struct side *side, unsigned times);

// A write that takes a block: for this place of the last entry, or for its last one if it has not so many, whose map has nothing else
// but, in a lower place (none where it is the same), the block that it began with or the highest of the disk, which has no free one
// above it; on the nearly full disk, or where no other entry has a block.
struct taking {
    uint32_t place, lower;
    int highest, alone;
};
extern const struct taking *taking;
void taking_job(const struct side *side, unsigned times);

// What goes before: the volume as it was laid out, logged in, and a control block for the call.
void start_anew(const struct side *side);
void start_at_end(const struct side *side);
void start_at_position(const struct side *side);
void start_at_sixteen(const struct side *side);
void start_at_nothing(const struct side *side);
void start_taking(const struct side *side);
void start_at_last_file(const struct side *side);
void start_at_new_file(const struct side *side);
void start_at_search(const struct side *side);
void start_in_search(const struct side *side);

#endif
