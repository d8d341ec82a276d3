// A chapter of 1,000 records whose siglum is replaced: by the desk in one call, and by reads and writes.
#ifndef SIGLA_H
#define SIGLA_H

#include <stdint.h>

// Lays a collation file with such a chapter onto the filled volume, its two entries in these slots, and logs it in. One record in so
// many has the siglum.
void lay_chapter(unsigned one_in, const uint32_t slots[2]);

// Replaces it; all leave the same volume. By calls as a caller does who tests everything before anything is changed and keeps marks
// alone: each record is read and marked, and then each that is marked is read again and written. And with each record read once and each
// that matches written once, which changes records before the last is tested.
void replace_by_desk(void);
void replace_by_calls(void);
void replace_untested(void);

#endif
