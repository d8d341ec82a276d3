// gencmd: a hex file of this machine made a CMD file.
#include "tool.h"

#include <stdio.h>
#include <string.h>
#include <unistd.h>

static bool is_standard(const char *path)
{
    return strcmp(path, "-") == 0;
}

static uint32_t number_for(struct bytes text, size_t count, struct bytes room)
{
    return (uint32_t)CHURAWEL_NUMBER(churawel_gencmd(text.at, count, room.at, CHURAWEL_CMD_MOST));
}

// The line of the text by which it is refused: the first one up to which the text is refused by the same number. Up to a line
// before it the text only lacks its end.
static size_t refused_line(struct bytes text, uint32_t number, struct bytes room)
{
    size_t *ends = room_for(text.count * sizeof *ends), low = 0, high = 0;
    for (size_t at = 0; at < text.count; at++)
        if (text.at[at] == '\n')
            ends[high++] = at + 1;
    while (low < high) {
        size_t middle = low + (high - low) / 2;
        if (number_for(text, ends[middle], room) == number)
            high = middle;
        else
            low = middle + 1;
    }
    return low + 1;
}

static _Noreturn void refuse_text(const char *about, uint32_t number, struct bytes text, struct bytes room)
{
    if (number >= CHURAWEL_REFUSED_HEX_NO_END)
        refuse_by(about, number, "");
    refuse("%s: line %zu: %s (%u)", about, refused_line(text, number, room), words_of(number), number);
}

void gencmd(const struct options *options, char **operands, int count)
{
    (void)count;
    const char *in = operands[0], *out = operands[1], *about = is_standard(in) ? "standard input" : in;
    struct bytes text = read_input(in, TEXT_MOST + 1), file = {room_for(CHURAWEL_CMD_MOST), 0};
    if (text.count > TEXT_MOST)
        refuse("%s: a hex file can't have more than %d bytes", about, TEXT_MOST);
    uint64_t answer = churawel_gencmd(text.at, text.count, file.at, CHURAWEL_CMD_MOST);
    if (CHURAWEL_NUMBER(answer) != 0)
        refuse_text(about, (uint32_t)CHURAWEL_NUMBER(answer), text, file);
    file.count = (size_t)CHURAWEL_LENGTH(answer);
    struct stat source = {0};
    if (is_standard(out))
        write_all(STDOUT_FILENO, "standard output", file);
    else if ((is_standard(in) ? fstat(STDIN_FILENO, &source) : stat(in, &source)) == 0)
        write_result(out, &source, "the hex file", options->replace, file);
    else
        refuse("%s can't be read any more", about);
}
