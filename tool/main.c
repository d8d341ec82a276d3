// The command line: options, and which command is meant.
#include "tool.h"

#include <fcntl.h>
#include <getopt.h>
#include <limits.h>
#include <stdio.h>
#include <stdlib.h>
#include <string.h>
#include <unistd.h>

#define PATTERN_WORDS \
    "In PATTERN ? stands for any character, and * for the rest of the name or of the type; SIG*.* is each file whose name begins with SIG."

const struct command COMMANDS[] = {
    {"who", "SIGLUM OWN [HOUSE]", "gfh", 2, 3, false,
     "Says which manuscript a siglum means, by the edition's own list or, if that lacks it, by the house list.\n"
     "A list is a file of this machine, or IMAGE:FILE on a disk. Its lines have 32 bytes, two of siglum and thirty of name; the\n"
     "first that has the siglum counts. A siglum of one character has a blank behind it; one that can't be typed is 0x and its two\n"
     "bytes in hex, as in 0xFF01. Bytes of the name that can't be shown become full stops.",
     who},
    {"replace", "IMAGE FILE CHAPTER OLD NEW", "gfh", 5, 5, true,
     "Replaces one siglum by another in one chapter of a collation file, and says how many records had it.\n"
     "Nothing but the siglum of these records is changed, and nothing at all where a record that the contents list can't be read.\n"
     "OLD and NEW are typed as the SIGLUM of who.",
     replace_siglum},
    {"list", "IMAGE [PATTERN]", "gfuh", 1, 2, false,
     "Lists the files of every user: user, name, records, bytes, blocks, attributes; then the free blocks.\n"
     PATTERN_WORDS,
     list},
    {"check", "IMAGE", "gfh", 1, 1, false,
     "Says whether the disk is sound; if not, the first bad slot of its directory, its file, and what is wrong with it.", check},
    {"shelf", "IMAGE ..", "gfh", 1, INT_MAX, false,
     "Says what many disks hold together: refused disks; of the others files, entries, records, blocks held and free, waste.\n"
     "Waste is how many more records their blocks have room for. Then for each refused disk why it is refused.\n"
     "The disks may be of several kinds: -g is for those whose length it fits, or that are not known by their length.\n"
     "An image that can't be read is not counted, nor is one behind the 65535th, and the exit status is then 1. A refused disk is\n"
     "counted as such, and leaves it 0.",
     shelf},
    {"get", "IMAGE FILE [OUT]", "gftRGh", 2, 3, false,
     "Copies a file of the disk to a file of this machine.\n"
     "Without OUT that has the file's own name; - is standard output. One that is there is replaced only with --replace.\n"
     "A record that was never written is an error, but not with --gaps zero.",
     get},
    {"type", "IMAGE FILE", "gfGh", 2, 2, false,
     "Shows a file as text, to its first 1AH.\n"
     "A record before that which was never written is an error, but not with --gaps zero.",
     type},
    {"put", "IMAGE IN [FILE]", "gftRh", 2, 3, true,
     "Copies a file of this machine to the disk, whole or not at all.\n"
     "Without FILE it keeps its name, in capitals; - is standard input. One that is there is replaced only with --replace, and\n"
     "stays a system file if it was one. The last record is filled up with zeros, or with 1AH as text.",
     put},
    {"rename", "IMAGE FILE NEW", "gfh", 3, 3, true, "Gives a file another name.", rename_file},
    {"erase", "IMAGE PATTERN", "gfh", 2, 2, true,
     "Erases one user's files that match, all or none: a file that is read-only stops it.\n"
     PATTERN_WORDS,
     erase},
    {"attributes", "IMAGE FILE SIGN ..", "gfh", 3, 6, true,
     "Makes a file read-only (+r) or not (-r), and a system file (+s) or not (-s).\n"
     "Options stand before IMAGE.",
     attributes},
    {"new", "IMAGE", "gfh", 1, 1, true,
     "Makes an empty disk; IMAGE must not be there yet.\n"
     "Without a geometry that of 40960 bytes is taken.",
     new_image},
    {"fresh", "IMAGE NEW", "gfh", 2, 2, true,
     "Makes NEW, a copy of the disk in good order without what was erased; NEW must not be there yet.\n"
     "Files go by their first slot, and a file's entries and blocks stand one behind the other. Blocks that files hold\n"
     "are copied whole, all others are blank; a floppy's system tracks go along. IMAGE stays as it is.",
     fresh_image},
    {"gencmd", "IN OUT", "Rh", 2, 2, false,
     "Makes a CMD file, which the machine can run, of a hex file; both are files of this machine.\n"
     "IN may be - for standard input, OUT - for standard output. A file OUT that is there is replaced only with --replace.\n"
     "IN may have up to 16777216 bytes.",
     gencmd},
};
const int COMMANDS_COUNT = sizeof COMMANDS / sizeof *COMMANDS;

static const struct option LONG[] = {
    {"geometry", required_argument, NULL, GEOMETRY}, {"format", required_argument, NULL, FORMAT},
    {"user", required_argument, NULL, USER},         {"text", no_argument, NULL, TEXT},
    {"replace", no_argument, NULL, REPLACE},         {"gaps", required_argument, NULL, GAPS},
    {"help", no_argument, NULL, HELP},               {"version", no_argument, NULL, VERSION},
    {NULL, 0, NULL, 0},
};

// An option that getopt_long does not take: unknown, or not as it is spelled.
static _Noreturn void refuse_option(const char *word)
{
    if (option_spelled(optopt) != NULL)
        wrong_use("it is: %s", option_spelled(optopt));
    if (optopt != 0)
        wrong_use("there is no option '-%c'", optopt);
    wrong_use("there is no option '%s'", word);
}

// Takes the options of a command, or those before it; one that it does not have is wrong use. Hands back the place of the first
// other word. Options before the command end with it, and the signs -r and -s of attributes are no options; other commands take
// their options behind operands too.
static int take_options(const struct command *command, int count, char **words, struct options *options)
{
    const char *about = command == NULL ? "churawel, before its command," : command->name;
    const char *letters = command == NULL ? "gfhV" : command->takes;
    const char *text = command == NULL || command->run == attributes ? "+g:f:u:thV" : "g:f:u:thV";
    opterr = 0;
    optind = 0;
    for (int letter; (letter = getopt_long(count, words, text, LONG, NULL)) != -1;) {
        if (letter == '?')
            refuse_option(words[optind - 1]);
        if (strchr(letters, letter) == NULL)
            wrong_use("%s has no option %s", about, option_spelled(letter));
        switch (letter) {
        case GEOMETRY: options->geometry = optarg; break;
        case FORMAT: options->format = optarg; break;
        case USER: options->user = user_of(optarg); break;
        case TEXT: options->text = true; break;
        case REPLACE: options->replace = true; break;
        case GAPS: options->gaps = optarg; break;
        case VERSION: show_version();
        case HELP:
            if (command == NULL)
                show_help();
            show_command_help(command);
        }
    }
    return optind;
}

static const struct command *command_of(const char *word)
{
    for (int k = 0; k < COMMANDS_COUNT; k++)
        if (strcmp(COMMANDS[k].name, word) == 0)
            return &COMMANDS[k];
    wrong_use("there is no command '%s'", word);
}

// Standard input, output and error are there, so that no other file takes their numbers.
static void hold_standard_files(void)
{
    int file = 0;
    while (file >= 0 && file <= STDERR_FILENO)
        file = open("/dev/null", O_RDWR);
    if (file >= 0)
        close(file);
}

// What could not be printed is a refusal, but of a command that has changed the image: that is done.
static int ended(const struct command *command)
{
    if (fflush(stdout) == 0 && !ferror(stdout))
        return DONE;
    if (!command->changes)
        refuse("standard output can't be written");
    note("it is done, but standard output can't be written");
    return DONE;
}

int main(int count, char **words)
{
    struct options options = {NULL, NULL, NULL, ANY_USER, false, false};
    hold_standard_files();
    int at = take_options(NULL, count, words, &options);
    if (at >= count)
        wrong_use("a command is missing");
    const struct command *command = command_of(words[at]);
    count -= at;
    words += at;
    at = take_options(command, count, words, &options);
    if (count - at < command->least || count - at > command->most)
        wrong_use("it is: churawel %s %s", command->name, command->operands);
    command->run(&options, words + at, count - at);
    return ended(command);
}
