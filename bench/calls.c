// The proved calls on the volume that is worked on.
#include "calls.h"

#include <stdio.h>
#include <stdlib.h>

void must(int good, const char *what)
{
    if (!good) {
        fprintf(stderr, "%u blocks, %u slots: %s is refused\n", work.total, work.slots, what);
        exit(1);
    }
}

void log_in_proved(void)
{
    uint32_t answer = churawel_log_in(work.block, work.total, work.directory, work.placing, work.volume, work.bytes, desk.drive, drive_bytes(&work));
    must(CHURAWEL_NUMBER(answer) == 0, "the volume");
}
