// Makes CMD files at the seam: for each text on standard input its room, its length and its bytes (the numbers with four bytes, low
// byte first); to standard output the answer's eight bytes, and then all of the buffer. Around buffer and text stand bytes that
// must stay as they are.
#include "churawel.h"

#include <stdio.h>
#include <stdlib.h>
#include <string.h>

enum { GUARD = 64, ROOM_MOST = CHURAWEL_CMD_MOST + 300, TEXT_MOST = 1 << 20 };

static uint8_t text[GUARD + TEXT_MOST + GUARD], given[sizeof text], out[GUARD + ROOM_MOST + GUARD];

// A number, where one stands there.
static int next(uint32_t *number)
{
    uint8_t bytes[4];
    if (fread(bytes, 1, 4, stdin) != 4)
        return 0;
    *number = bytes[0] | bytes[1] << 8 | bytes[2] << 16 | (uint32_t)bytes[3] << 24;
    return 1;
}

static int all(const uint8_t *bytes, size_t count, uint8_t byte)
{
    for (size_t k = 0; k < count; k++)
        if (bytes[k] != byte)
            return 0;
    return 1;
}

int main(void)
{
    for (uint32_t room, length; next(&room);) {
        memset(text, 0x3A, sizeof text);
        memset(out, 0xEE, sizeof out);
        if (room > ROOM_MOST || !next(&length) || length > TEXT_MOST || fread(text + GUARD, 1, length, stdin) != length)
            return 2;
        memcpy(given, text, sizeof text);
        uint64_t answer = churawel_gencmd(text + GUARD, length, out + GUARD, room);
        if (memcmp(given, text, sizeof text) != 0 || !all(out, GUARD, 0xEE) || !all(out + GUARD + room, sizeof out - GUARD - room, 0xEE))
            return 3;
        for (int k = 0; k < 8; k++)
            putchar((int)(answer >> 8 * k & 0xFF));
        fwrite(out + GUARD, 1, room, stdout);
        fflush(stdout);
    }
    return 0;
}
