// Which sizes a disk has: known by the image's length, or said by -g and -f or by the environment.
#include "tool.h"

#include <inttypes.h>
#include <stdio.h>
#include <stdlib.h>
#include <string.h>

static const struct geometry V = {1024, 40, 1, CHURAWEL_STRAIGHT};
static const struct geometry FLOPPY = {1024, 243, 2, CHURAWEL_EIGHT_INCH};

// An eight-inch floppy has 77 tracks of 26 sectors.
enum { FLOPPY_BYTES = 77 * 26 * RECORD_BYTES };

size_t bytes_of(const struct geometry *geometry)
{
    if (geometry->placing == CHURAWEL_EIGHT_INCH)
        return FLOPPY_BYTES;
    return (size_t)geometry->block_bytes * geometry->blocks;
}

const char *shown_geometry(const struct geometry *geometry)
{
    static char shown[64];
    snprintf(shown, sizeof shown, "%u,%u,%u%s", geometry->block_bytes, geometry->blocks, geometry->directory_blocks,
             geometry->placing == CHURAWEL_EIGHT_INCH ? " eight-inch" : "");
    return shown;
}

// A number, and the sign behind it; where there is none, no text comes back.
static const char *take_number(const char *text, char behind, uint32_t *number)
{
    uint32_t value = 0;
    const char *at = text;
    for (; at != NULL && *at >= '0' && *at <= '9' && value < 1000000; at++)
        value = 10 * value + (uint32_t)(*at - '0');
    if (at == NULL || at == text || *at != behind)
        return NULL;
    *number = value;
    return at + 1;
}

static struct geometry said(const char *text, const char *by)
{
    struct geometry geometry = V;
    const char *rest = take_number(text, ',', &geometry.block_bytes);
    rest = take_number(rest, ',', &geometry.blocks);
    if (take_number(rest, '\0', &geometry.directory_blocks) == NULL)
        wrong_use("%s takes three numbers, bytes a block, blocks, and blocks of directory, as in 1024,40,1, and not '%s'", by,
                  text);
    return geometry;
}

// By -g and -f, or by the environment; false where none of them says it.
static bool is_said(const struct options *options, struct geometry *geometry)
{
    const char *environment = getenv("CHURAWEL_GEOMETRY");
    if (options->format != NULL && strcmp(options->format, "eight-inch") != 0)
        wrong_use("-f takes the word eight-inch, and not '%s'", options->format);
    if (options->geometry != NULL)
        *geometry = said(options->geometry, "-g");
    else if (options->format != NULL)
        *geometry = FLOPPY;
    else if (environment != NULL && *environment != '\0')
        *geometry = said(environment, "CHURAWEL_GEOMETRY");
    else
        return false;
    if (options->format != NULL)
        geometry->placing = CHURAWEL_EIGHT_INCH;
    return true;
}

// By the length where it is a floppy's, which no other disk has, whatever is said; else by -g and -f, by the environment or by V's
// length. False, and V's, where none of them says it.
static bool is_known(const struct options *options, uint64_t image_bytes, struct geometry *geometry)
{
    *geometry = V;
    bool known = is_said(options, geometry);
    if (image_bytes == FLOPPY_BYTES)
        *geometry = FLOPPY;
    return known || image_bytes == bytes_of(geometry);
}

bool geometry_of_one(const struct options *options, uint64_t image_bytes, struct geometry *geometry)
{
    bool known = is_known(options, image_bytes, geometry);
    if (image_bytes != bytes_of(geometry) && image_bytes == bytes_of(&V))
        *geometry = V;
    return known;
}

struct geometry geometry_of_image(const struct options *options, const char *image, uint64_t image_bytes)
{
    struct geometry geometry;
    if (!is_known(options, image_bytes, &geometry))
        wrong_use("%s has %" PRIu64 " bytes: say its geometry by -g B,T,D; known without it are images of 40960 bytes, "
                  "1024,40,1, and of 256256 bytes, eight-inch floppies",
                  image, image_bytes);
    return geometry;
}

struct geometry geometry_of_new(const struct options *options)
{
    struct geometry geometry = V;
    is_said(options, &geometry);
    return geometry;
}
