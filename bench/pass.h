// The replacement pass: what the collation program asks when it replaces a siglum in several files.
#ifndef PASS_H
#define PASS_H

#include "shelf.h"

enum { PASS_CALLS = 40000 };

// Makes 40,000 calls on the desk and the volume, which is logged in. Answers the sum of the answers; with `check` a checksum
// of all that every call left instead: answer, drive, control block and buffer, and in the end the volume.
uint64_t replacement_pass(const struct side *side, struct shelf *shelf, struct desk *desk, int check);

#endif
