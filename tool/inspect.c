// Inspection in words: why a disk is not sound.
#include "tool.h"

#include <stdio.h>
#include <string.h>

// The rules of inspection in the paper's order, as churawel_fault numbers them.
enum {
    BAD_USER = 1,
    BAD_NAME,
    BAD_TOP_BIT,
    BAD_EX,
    BAD_S1,
    BAD_S2,
    BAD_RC,
    BLOCK_OUTSIDE,
    BLOCK_TWICE,
    BLOCK_SHARED,
    ENTRY_TWICE,
};

// What a slot's own bytes break.
static const char *const OWN_RULES[] = {
    [BAD_USER] = "its user is not 0 to 15",
    [BAD_NAME] = "its name has a byte that no name has",
    [BAD_TOP_BIT] = "a byte of its name has a top bit that is neither read-only nor system",
    [BAD_EX] = "its extent (ex) is above 31",
    [BAD_S1] = "its byte s1 is not 0",
    [BAD_S2] = "its extent (s2) is above 15",
    [BAD_RC] = "its count of records (rc) is above 128",
};

// A slot, and the file whose entry stands in it.
struct slot {
    uint32_t number;
    uint8_t user;
    uint8_t name[NAME_BYTES];
};

// Why a slot is bad; the rest is 0 where the rule does not speak of it.
struct fault {
    uint32_t rule, place, block;
    struct slot bad, other;
};

enum { SAID_MOST = 512, SLOT_SHOWN_MOST = SHOWN_MOST + 16 };

static const char *shown_slot(const struct slot *slot, char *shown)
{
    char file[SHOWN_MOST];
    snprintf(shown, SLOT_SHOWN_MOST, "slot %u (%s)", slot->number, shown_file(slot->user, slot->name, file));
    return shown;
}

static void say_rule(const struct fault *fault, const struct geometry *geometry, char *said, size_t room)
{
    char other[SLOT_SHOWN_MOST];
    shown_slot(&fault->other, other);
    switch (fault->rule) {
    case BLOCK_OUTSIDE:
        snprintf(said, room, "place %u names block %u, and files have blocks %u to %u", fault->place, fault->block,
                 geometry->directory_blocks, geometry->blocks - 1);
        break;
    case BLOCK_TWICE: snprintf(said, room, "block %u stands in it twice", fault->block); break;
    case BLOCK_SHARED: snprintf(said, room, "block %u at place %u belongs to %s too", fault->block, fault->place, other); break;
    case ENTRY_TWICE: snprintf(said, room, "%s has the same user, name and extents", other); break;
    default: snprintf(said, room, "%s", OWN_RULES[fault->rule]);
    }
}

static const char *in_words(const struct fault *fault, const struct geometry *geometry)
{
    static char said[SAID_MOST];
    char bad[SLOT_SHOWN_MOST], rule[SAID_MOST / 2];
    say_rule(fault, geometry, rule, sizeof rule);
    snprintf(said, sizeof said, "%s (%u): %s: %s", words_of(CHURAWEL_REFUSED_BAD_SLOT), CHURAWEL_REFUSED_BAD_SLOT,
             shown_slot(&fault->bad, bad), rule);
    return said;
}

static struct slot slot_of(uint32_t number, const uint8_t *owner)
{
    struct slot slot = {number, owner[0], {0}};
    memcpy(slot.name, owner + 1, NAME_BYTES);
    return slot;
}

static struct fault fault_of(const uint8_t *bytes)
{
    return (struct fault){
        .rule = bytes[0],
        .place = bytes[1],
        .block = number_at(bytes + 2, 2),
        .bad = slot_of(number_at(bytes + 4, 2), bytes + 8),
        .other = slot_of(number_at(bytes + 6, 2), bytes + 20),
    };
}

const char *inspect(struct disk *disk)
{
    static char said[SAID_MOST];
    uint8_t bytes[CHURAWEL_FAULT_BYTES];
    const struct geometry *g = &disk->geometry;
    uint32_t answer = churawel_fault(g->block_bytes, g->blocks, g->directory_blocks, g->placing, disk->volume.at,
                                     disk->volume.count, bytes, sizeof bytes);
    uint32_t number = CHURAWEL_NUMBER(answer);
    if (number == 0) {
        disk->free_blocks = CHURAWEL_VALUE(answer);
        return NULL;
    }
    if (number == CHURAWEL_REFUSED_BAD_SLOT) {
        struct fault fault = fault_of(bytes);
        return in_words(&fault, g);
    }
    bool unlawful = number == CHURAWEL_REFUSED_CLOSED;
    snprintf(said, sizeof said, "%s (%u): %lld bytes, %s%s%s", words_of(number), number,
             (long long)disk->original.state.st_size, shown_geometry(g), unlawful ? "; " : "", unlawful ? LAWFUL : "");
    return said;
}
