// fresh: a copy of a disk in good order, as a new image.
#include "tool.h"

#include <stdio.h>
#include <string.h>

void fresh_image(const struct options *options, char **operands, int count)
{
    (void)count;
    struct disk *worn = open_disk(options, operands[0], false);
    struct disk fresh = *worn;
    const struct geometry *g = &worn->geometry;
    // What no record of the volume stands in, as a floppy's system tracks, goes along as it is.
    fresh.volume.at = memcpy(room_for(worn->volume.count), worn->volume.at, worn->volume.count);
    uint32_t answer = churawel_fresh_copy(g->block_bytes, g->blocks, g->directory_blocks, g->placing, worn->volume.at,
                                          worn->volume.count, fresh.volume.at, fresh.volume.count);
    if (CHURAWEL_NUMBER(answer) != 0)
        refuse_by(operands[0], CHURAWEL_NUMBER(answer), "");
    inspect_written(&fresh, operands[1]);
    create_file(operands[1], fresh.volume);
    printf("%s: a fresh disk, free blocks: %u\n", operands[1], CHURAWEL_VALUE(answer));
}
