// What the program says: one sentence for each number of refusal, the help, and the two ways to end early.
#include "tool.h"

#include <stdarg.h>
#include <stdio.h>
#include <stdlib.h>
#include <string.h>

static const struct {
    uint32_t number;
    const char *sentence;
} WORDS[] = {
    {CHURAWEL_REFUSED_NOT_SERVED, "there is no such function"},
    {CHURAWEL_REFUSED_CLOSED, "no disk has this geometry"},
    {CHURAWEL_REFUSED_VOLUME_LENGTH, "the image's length is not that of its geometry"},
    {CHURAWEL_REFUSED_FCB_LENGTH, "a control block has not 36 bytes"},
    {CHURAWEL_REFUSED_COUNT, "so many records can't be asked for at once"},
    {CHURAWEL_REFUSED_BUFFER_LENGTH, "a transfer buffer has not the length that is asked for"},
    {CHURAWEL_REFUSED_DRIVE_CODE, "there is no such drive"},
    {CHURAWEL_REFUSED_USER_CODE, "a user is a number from 0 to 15"},
    {CHURAWEL_REFUSED_NAME, "this can't be a file's name"},
    {CHURAWEL_REFUSED_UNTYPEABLE, "a new name can't have small letters, blanks inside or any of < > . , ; : = * [ ]"},
    {CHURAWEL_REFUSED_POSITION, "there is no such position in a file"},
    {CHURAWEL_REFUSED_BEYOND, "a file can't have more than 65536 records"},
    {CHURAWEL_REFUSED_BAD_SLOT, "the disk is not sound"},
    {CHURAWEL_REFUSED_PROTECTED, "the disk is write-protected"},
    {CHURAWEL_REFUSED_NO_MATCH, "there is no such file"},
    {CHURAWEL_REFUSED_NO_FILE, "the user has no such file"},
    {CHURAWEL_REFUSED_READ_ONLY, "the file is read-only"},
    {CHURAWEL_REFUSED_EXISTS, "a file of this name is there already"},
    {CHURAWEL_REFUSED_NO_GROUP, "the record was never written, nor any near it"},
    {CHURAWEL_REFUSED_ABSENT, "the record was never written"},
    {CHURAWEL_REFUSED_OUTSIDE, "the file's entry names a block that is not on the disk"},
    {CHURAWEL_REFUSED_NO_SLOT, "the directory is full"},
    {CHURAWEL_REFUSED_NO_BLOCK, "the disk is full"},
    {CHURAWEL_SHELF_FULL, "no more than 65535 disks are counted together"},
    {CHURAWEL_DESK_CONTENTS, "the file's contents are not in order, list a record that can't be read, or lack the chapter"},
    {CHURAWEL_DESK_NEITHER, "no list has this siglum"},
    {CHURAWEL_DESK_LISTS, "a list is not made of lines of 32 bytes"},
    {CHURAWEL_REFUSED_HEX_DIGITS, "a character is not 0 to 9 or A to F, or the line is cut off"},
    {CHURAWEL_REFUSED_HEX_SUM, "the bytes of the line don't add up with its checksum"},
    {CHURAWEL_REFUSED_HEX_OTHER_TYPE, "the line's type is not 00, 01 or 81 to 84"},
    {CHURAWEL_REFUSED_HEX_BEYOND, "the line has bytes beyond address FFFFH"},
    {CHURAWEL_REFUSED_HEX_NO_END, "there is no line of type 01, which ends a hex file"},
    {CHURAWEL_REFUSED_HEX_NO_CODE, "there is no byte of code"},
    {CHURAWEL_REFUSED_HEX_ROOM, "the CMD file is longer than its buffer"},
};

#define LAWFUL_WORDS \
    "B is 1024, 2048 or 4096 and T 2 to 256, or B is 2048 or 4096 and T 257 to 4096, at most 8388608 bytes in all; D is 1 to 16, below T; " \
    "an eight-inch floppy is 1024,243,2"

const char LAWFUL[] = LAWFUL_WORDS;

const char *words_of(uint32_t number)
{
    for (size_t k = 0; k < sizeof WORDS / sizeof *WORDS; k++)
        if (WORDS[k].number == number)
            return WORDS[k].sentence;
    return "refused by a number that has no words";
}

// A message: results that stand in line go before it.
static void say(const char *format, va_list values)
{
    fflush(stdout);
    fputs("churawel: ", stderr);
    vfprintf(stderr, format, values);
    fputc('\n', stderr);
}

void note(const char *format, ...)
{
    va_list values;
    va_start(values, format);
    say(format, values);
    va_end(values);
}

void refuse(const char *format, ...)
{
    va_list values;
    va_start(values, format);
    say(format, values);
    va_end(values);
    exit(REFUSED);
}

void wrong_use(const char *format, ...)
{
    va_list values;
    va_start(values, format);
    say(format, values);
    va_end(values);
    fputs("churawel --help says more.\n", stderr);
    exit(WRONG_USE);
}

void refuse_by(const char *about, uint32_t number, const char *further)
{
    refuse("%s: %s (%u)%s", about, words_of(number), number, further);
}

// ---- help

static const struct {
    int letter;
    const char *spelled, *what;
} OPTIONS[] = {
    {GEOMETRY, "-g, --geometry B,T,D", "bytes a block, blocks, blocks of directory"},
    {FORMAT, "-f, --format FORMAT", "the word eight-inch: the image of an eight-inch floppy"},
    {USER, "-u, --user USER", "files of this user alone"},
    {TEXT, "-t, --text", "as text, which ends at its first 1AH"},
    {REPLACE, "--replace", "a file that is there already is replaced"},
    {GAPS, "--gaps zero", "records that were never written are zeros, and no error"},
    {HELP, "-h, --help", "says what can be done; behind a command, what that does"},
    {VERSION, "-V, --version", "says which version this is"},
};

const char *option_spelled(int letter)
{
    for (size_t k = 0; k < sizeof OPTIONS / sizeof *OPTIONS; k++)
        if (OPTIONS[k].letter == letter)
            return OPTIONS[k].spelled;
    return NULL;
}

static void show_options(const char *letters)
{
    puts("\nOptions:");
    for (size_t k = 0; k < sizeof OPTIONS / sizeof *OPTIONS; k++)
        if (strchr(letters, OPTIONS[k].letter) != NULL)
            printf("  %-22s %s\n", OPTIONS[k].spelled, OPTIONS[k].what);
}

static const char GENERAL[] =
    "\n"
    "A file on a disk is typed as SIGLA.TXT, or 3:SIGLA.TXT for user 3, in small or capital letters.\n"
    "\n"
    "The geometry is said by -g, or by -f eight-inch, or else by CHURAWEL_GEOMETRY in the environment. Without them an image of 40960\n"
    "bytes is 1024,40,1. One of 256256 bytes is an eight-inch floppy, whatever they say, as no other disk has this length.\n"
    LAWFUL_WORDS ".\n"
    "\n"
    "An image is changed as a whole or not at all. Exit status: 0 done, 1 refused, 2 wrong use.\n";

void show_help(void)
{
    puts("Usage: churawel [-g B,T,D] [-f FORMAT] COMMAND ..\n"
         "\n"
         "Lists, checks, reads and changes disk images of SCP 1700 (CP/M-86), and the sigla of an edition on them; makes CMD files of hex files.\n"
         "\n"
         "Commands:");
    for (int k = 0; k < COMMANDS_COUNT; k++) {
        const char *what = COMMANDS[k].what;
        printf("  %-11s %s\n              %.*s\n", COMMANDS[k].name, COMMANDS[k].operands, (int)strcspn(what, "\n"), what);
    }
    show_options("gfhV");
    fputs(GENERAL, stdout);
    exit(DONE);
}

void show_command_help(const struct command *command)
{
    printf("Usage: churawel %s [OPTION ..] %s\n\n%s\n", command->name, command->operands, command->what);
    show_options(command->takes);
    exit(DONE);
}

void show_version(void)
{
    puts("churawel " TOOL_VERSION);
    exit(DONE);
}
