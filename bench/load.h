// A small program loaded: by churawel_load in one call, and by the calls that it needs.
#ifndef LOAD_H
#define LOAD_H

#include "shelf.h"

#include <stdint.h>

// Records of its CMD file, the first one its header; and the bytes of its base page.
enum { PROGRAM_RECORDS = 20, BASE_PAGE = 48, LOADED_BYTES = (PROGRAM_RECORDS - 1) * RECORD - BASE_PAGE };

// Lays the file onto the filled volume, its entry in the last slot, and logs it in; the memory is empty.
void lay_program(void);

// Loads it; both leave the same image in the memory, but for its base page.
void load_by_load(void);
void load_by_calls(void);

// The image as it was loaded last, behind its base page.
const uint8_t *loaded(void);

#endif
