// The host test: the file calls through churawel.h, as an emulator would make them. A line for each case, then the count.
#include "desk.h"

#include <stdio.h>

int main(void)
{
    setvbuf(stdout, NULL, _IOLBF, 0);
    paper_examples();
    looking_right();
    each_function();
    kept_together();
    several_records();
    lent_and_log_in();
    malformed_drives();
    typing();
    why_bad();
    each_line();
    cut_calls();
    hard_disk();
    floppies();
    on_the_shelf();
    fresh_disks();
    sigla_by_column();
    memory_and_load();
    hex_to_cmd();
    stack_used();
    return summary() == 0 ? 0 : 1;
}
