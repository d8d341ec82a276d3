// The file calls in plain C, called as those of churawel.h are.
#ifndef PLAIN_H
#define PLAIN_H

#include <stddef.h>
#include <stdint.h>

// Placing is 0: the plain calls know straight volumes alone.
uint32_t plain_log_in(uint32_t block_bytes, uint32_t blocks, uint32_t directory_blocks, uint32_t placing, const uint8_t *volume,
                      size_t volume_bytes, uint8_t *drive, size_t drive_bytes);

uint32_t plain_call(uint8_t function, uint8_t parameter, uint8_t *drive, size_t drive_bytes, uint8_t *volume,
                    size_t volume_bytes, uint8_t *fcb, size_t fcb_bytes, uint8_t *buffer, size_t buffer_bytes);

uint32_t plain_fresh_copy(uint32_t block_bytes, uint32_t blocks, uint32_t directory_blocks, uint32_t placing, const uint8_t *first,
                          size_t first_bytes, uint8_t *second, size_t second_bytes);

#endif
