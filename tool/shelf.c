// shelf: what many images hold together, read one after another.
#include "tool.h"

#include <stdio.h>
#include <stdlib.h>
#include <time.h>
#include <unistd.h>

// The figures in the order in which they stand on the shelf, eight bytes each. Their sums are proved to need four.
static const char *const HEADINGS[] = {"REFUSED", "FILES", "ENTRIES", "RECORDS", "HELD", "FREE", "WASTE"};
enum { FIGURES = sizeof HEADINGS / sizeof *HEADINGS, FIGURE_BYTES = 8, FIGURE_USED = 4, COLUMN = 10 };

static void show_figures(const uint8_t *figures)
{
    for (int k = 0; k < FIGURES; k++)
        printf("%*s%c", COLUMN, HEADINGS[k], k + 1 < FIGURES ? ' ' : '\n');
    for (int k = 0; k < FIGURES; k++)
        printf("%*u%c", COLUMN, number_at(figures + FIGURE_BYTES * k, FIGURE_USED), k + 1 < FIGURES ? ' ' : '\n');
}

// ---- progress: where standard error is a terminal, once a second which image is being read

enum { PROGRESS_MOST = 40 };
static time_t progress_shown;

static void show_progress(int image, int count)
{
    time_t now = time(NULL);
    if (now == progress_shown || !isatty(STDERR_FILENO))
        return;
    progress_shown = now;
    fprintf(stderr, "\rimage %d of %d", image, count);
}

// What is said next begins at the line's first column.
static void clear_progress(void)
{
    if (progress_shown != 0)
        fprintf(stderr, "\r%*s\r", PROGRESS_MOST, "");
    progress_shown = 0;
}

// ---- the images

// An image, and whether its geometry is said or known by its length.
struct next {
    struct disk disk;
    bool known;
};

// Reads an image into the disk's room; false, and said, where it can't be read.
static bool read_next(const struct options *options, const char *path, struct next *next)
{
    struct disk *disk = &next->disk;
    disk->path = path;
    const char *why = read_into(path, &disk->volume, VOLUME_MOST + 1, &disk->original.state);
    if (why != NULL) {
        clear_progress();
        note("%s %s; it is not counted", path, why);
        return false;
    }
    next->known = geometry_of_one(options, (uint64_t)disk->original.state.st_size, &disk->geometry);
    return true;
}

// Puts the volume on the shelf; why log-in refuses it goes to `refusals`. False where the shelf is full.
static bool put_on(uint8_t *figures, struct next *next, FILE *refusals)
{
    struct disk *disk = &next->disk;
    const struct geometry *g = &disk->geometry;
    uint32_t answer = churawel_shelf(figures, CHURAWEL_SHELF_BYTES, g->block_bytes, g->blocks, g->directory_blocks,
                                     g->placing, disk->volume.at, disk->volume.count);
    if (CHURAWEL_NUMBER(answer) != 0) {
        clear_progress();
        note("%s: %s (%u); neither this image nor any behind it is counted", disk->path, words_of(CHURAWEL_NUMBER(answer)),
             CHURAWEL_NUMBER(answer));
        return false;
    }
    if (CHURAWEL_VALUE(answer) != 0)
        fprintf(refusals, "%s: %s%s\n", disk->path, inspect(disk), next->known ? "" : "; say its own by -g");
    return true;
}

void shelf(const struct options *options, char **operands, int count)
{
    uint8_t figures[CHURAWEL_SHELF_BYTES] = {0};
    struct next next = {.disk = {.volume = {room_for(VOLUME_MOST + 1), 0}}};
    char *why = NULL;
    size_t why_bytes = 0;
    FILE *refusals = open_memstream(&why, &why_bytes);
    bool all = true, room = true;
    if (refusals == NULL)
        refuse("there is not enough memory");
    // What says the geometry is looked at before any image is.
    geometry_of_new(options);
    for (int k = 0; k < count && room; k++) {
        show_progress(k + 1, count);
        bool readable = read_next(options, operands[k], &next);
        room = !readable || put_on(figures, &next, refusals);
        all = all && readable && room;
    }
    clear_progress();
    if (fclose(refusals) != 0)
        refuse("there is not enough memory");
    show_figures(figures);
    fputs(why, stdout);
    fflush(stdout);
    if (!all)
        exit(REFUSED);
}
