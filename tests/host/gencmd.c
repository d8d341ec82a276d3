// A hex text made a CMD file: files and numbers worked out by hand from 000's chapter 4, every byte of the buffer compared.
#include "desk.h"

#include "churawel.h"

#include <string.h>

#define END ":00000001FF\n"
#define THREE ":0300050011223392\n"

enum { FILE_MOST = 512, FILL = 0xEE, HEADER = 128 };

// What is lent, with bytes behind it that no call may touch; and what must stand there.
static uint8_t out[FILE_MOST + GUARD], expected[sizeof out];

// One case: the answer, the file, the bytes behind it and the text, which stays. A number but 0: every byte stays.
static void makes(const char *what, const char *text, size_t room, uint32_t number, const uint8_t *file, size_t length)
{
    char given[1024];
    memset(out, FILL, sizeof out);
    memset(expected, FILL, sizeof expected);
    memcpy(expected, file, length);
    strcpy(given, text);
    uint64_t answer = churawel_gencmd((const uint8_t *)given, strlen(given), out, room);
    int good = answer == (number | (uint64_t)length << 32) && CHURAWEL_NUMBER(answer) == number && CHURAWEL_LENGTH(answer) == length;
    verdict(what, good && memcmp(out, expected, sizeof out) == 0 && strcmp(given, text) == 0);
}

static void refuses_text(const char *what, const char *text, uint32_t number)
{
    makes(what, text, FILE_MOST, number, out, 0);
}

// Three bytes at 0005H: the code group alone has 16 paragraphs, for its base page; 384 bytes.
static void three_bytes(void)
{
    static const uint8_t descriptor[] = {1, 16, 0, 0, 0, 16, 0, 16, 0};
    uint8_t file[384] = {0};
    memcpy(file, descriptor, sizeof descriptor);
    memcpy(file + HEADER + 5, "\x11\x22\x33", 3);
    makes("three bytes of code: 384 bytes, those behind stay", THREE END, FILE_MOST, 0, file, sizeof file);
    makes("the same with just enough room", THREE END, 384, 0, file, sizeof file);
    makes("a byte too little: 76, nothing changes", THREE END, 383, CHURAWEL_REFUSED_HEX_ROOM, file, 0);
    makes("no room at all: 76", THREE END, 0, CHURAWEL_REFUSED_HEX_ROOM, file, 0);
    makes("text around lines, and behind the end a wrong line that gives another byte",
          "SIGLA 00\r\n:0300050011223392FFFF GH:00000001FF:0100050044B5", FILE_MOST, 0, file, sizeof file);
}

// Code 02 04 05, since the later line counts; data at 0100H; stack (83) at 000FH, and extra (84) at 0010H, which stands first.
static void four_groups(void)
{
    static const uint8_t descriptors[] = {1, 1,  0, 0, 0, 1,  0, 1,  0, 2, 17, 0, 0, 0, 17, 0, 17, 0,
                                          3, 2,  0, 0, 0, 2,  0, 2,  0, 4, 1,  0, 0, 0, 1,  0, 1,  0};
    uint8_t file[512] = {0};
    memcpy(file, descriptors, sizeof descriptors);
    memcpy(file + HEADER, "\x02\x04\x05", 3);
    file[HEADER + 16 + 0x100] = 0x22;
    file[HEADER + 16 + 272 + 0x10] = 0x33;
    file[HEADER + 16 + 272 + 32 + 0x0F] = 0x44;
    makes("four groups: 1, 17, 2 and 1 paragraphs in 512 bytes",
          ":01000081017D\n:020000000203F9\n:01000F834429\n:010010843338\n:01010082225A\n:02000181040573\n" END, FILE_MOST, 0, file,
          sizeof file);
}

static void each_refusal(void)
{
    refuses_text("small letters: 70", ":000000ffFF\n" END, CHURAWEL_REFUSED_HEX_DIGITS);
    refuses_text("a line that the text's end cuts off: 70", ":03000500112233", CHURAWEL_REFUSED_HEX_DIGITS);
    refuses_text("a sum of 1: 71", ":0100000011EF\n" END, CHURAWEL_REFUSED_HEX_SUM);
    refuses_text("type 02: 72", ":020000020000FC\n" END, CHURAWEL_REFUSED_HEX_OTHER_TYPE);
    refuses_text("two bytes from FFFFH on: 73", ":02FFFF001122CD\n" END, CHURAWEL_REFUSED_HEX_BEYOND);
    refuses_text("one byte at FFFFH has no room here: 76", ":01FFFF0011F0\n" END, CHURAWEL_REFUSED_HEX_ROOM);
    refuses_text("a wrong sum before small letters: 71", ":0100000011EF\n:000000ffFF\n" END, CHURAWEL_REFUSED_HEX_SUM);
    refuses_text("no text: 74", "", CHURAWEL_REFUSED_HEX_NO_END);
    refuses_text("no end line: 74", THREE, CHURAWEL_REFUSED_HEX_NO_END);
    makes("no end line and no room: 74", THREE, 0, CHURAWEL_REFUSED_HEX_NO_END, out, 0);
    refuses_text("data alone: 75", ":01000082225B\n" END, CHURAWEL_REFUSED_HEX_NO_CODE);
}

// A byte at FFFFH in each group: the longest file.
static void longest_file(void)
{
    static uint8_t longest[CHURAWEL_CMD_MOST];
    static const char text[] = ":01FFFF0011F0\n:01FFFF82225D\n:01FFFF83334B\n:01FFFF844439\n" END;
    uint64_t answer = churawel_gencmd((const uint8_t *)text, sizeof text - 1, longest, sizeof longest);
    int good = answer == (uint64_t)CHURAWEL_CMD_MOST << 32 && longest[HEADER + 65535] == 0x11 && longest[sizeof longest - 1] == 0x33;
    verdict("four groups to FFFFH: the most bytes that a CMD file has, stack last", good && longest[HEADER + 3 * 65536 - 1] == 0x44);
}

void hex_to_cmd(void)
{
    three_bytes();
    four_groups();
    each_refusal();
    longest_file();
}
