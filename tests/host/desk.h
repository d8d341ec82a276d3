// The desk of the host test: what is lent to the calls, what must stand there after the next call, and the cases.
#ifndef DESK_H
#define DESK_H

#include <stddef.h>
#include <stdint.h>

enum { GUARD = 64, DRIVE_MOST = 640, VOLUME_MOST = 257 * 4096, RECORD = 128, PIECES = 16, ENTRY = 32 };

#define COUNT(list) (sizeof(list) / sizeof *(list))

// What is lent, with bytes behind and between that no call may touch. It holds nothing but bytes, and the volume stands last,
// so that two desks can be compared up to the end of their volumes.
struct desk {
    uint8_t guard0[GUARD];
    uint8_t drive[DRIVE_MOST + GUARD];
    uint8_t fcb[36 + GUARD];
    uint8_t buffer[PIECES * RECORD + GUARD];
    uint8_t volume[VOLUME_MOST + GUARD];
};

// How many bytes of each are lent.
struct lengths {
    size_t drive, volume, fcb, buffer;
};

extern struct desk now;
extern struct desk want;
extern struct lengths lent;

// How records lie in the volume that is lent; `fresh` makes it straight.
extern uint32_t placing;

// B bytes a block, T blocks, the first D of them directory; and the paper's volume.
struct geometry {
    uint32_t block, total, directory;
};
#define V ((struct geometry){1024, 40, 1})

// An entry of the directory. What is not said of one is 0. Where there are more than 256 blocks a number of its map is two bytes,
// low first: BLOCK(n).
struct entry {
    size_t slot;
    uint8_t user;
    const char *name;
    uint8_t ex, s2, rc, map[16];
};
#define ENTRY_WITH(...) ((struct entry){__VA_ARGS__})
#define BLOCK(n) (uint8_t)((n) & 255), (uint8_t)((n) >> 8)

// A volume of this geometry with an empty directory and data that differ from byte to byte; nothing is logged in.
void fresh(struct geometry g);

// Such a volume with these entries, logged in; one case. The drive has the geometry, and holds the blocks of the maps.
void logged_in(const char *what, struct geometry g, uint32_t free_blocks, const struct entry *entries, size_t count);

// From here on `want` is changed by what the next call must change.
void as_it_stands(void);

// Logs in with this geometry; one case. All bytes must be as in `want`.
void log_in(const char *what, struct geometry g, uint32_t number, uint32_t value);

// A log-in that is refused and closes the drive; one case.
void log_in_refused(const char *what, struct geometry g, uint32_t number, uint32_t value);

// A call; one case: its whole answer, and all bytes as in `want`.
void answers(const char *what, uint8_t function, uint8_t parameter, uint32_t answer);

// A call; one case: its whole answer, and all bytes as they stand but for the changes, which are one expression or more
// that change `want`.
#define EXPECT(what, function, parameter, answer, ...) \
    (as_it_stands(), __VA_ARGS__, answers(what, function, parameter, answer))

// A call that must change nothing; one case. The second is for refusals of calls without a parameter.
void changes_nothing(const char *what, uint8_t function, uint8_t parameter, uint32_t answer);
void refuses(const char *what, uint8_t function, uint32_t number);

// A call that is no case of its own: its answer; whether it answers so and leaves all bytes as in `want`; and whether each
// of these functions does, with parameter 0.
uint32_t call(uint8_t function, uint8_t parameter);
int holds(uint8_t function, uint8_t parameter, uint32_t answer);
int all_hold(const uint8_t *functions, size_t count, uint32_t answer);

// Are all bytes as in `want`?
int same_bytes(void);

// One case by its outcome.
void verdict(const char *what, int good);

// How many cases failed so far, after the last line is printed.
int summary(void);

// The control block: zeros and these eleven bytes of name, and rename's new name; the record of a random call; the
// buffer's bytes.
void block_for(const char *name);
void block_to_rename(const char *name, const char *new_name);
void at_record(uint32_t n);
void fill_buffer(uint8_t seed);

// What must stand afterwards. In the volume: an entry, one that was just made, the buffer's record at this byte.
void want_entry(struct entry e);
void want_made(size_t slot, const char *name);
void want_stored(size_t at);

// In the buffer: the record at this byte of the volume.
void want_shown(size_t at);

// In the control block: set to a record of this entry, opened by it, and the bytes r0 r1 r2.
void want_set_to(struct entry e, uint8_t cr);
void want_opened(struct entry e);
void want_random(uint8_t r0, uint8_t r1, uint8_t r2);

// In the drive: a block is held; nothing is open.
void want_held(unsigned block);
void want_closed(void);

// A record at this byte of the volume was read, or was written, with this entry afterwards.
void want_read(size_t at, struct entry e, uint8_t cr);
void want_written(size_t at, struct entry e, uint8_t cr);

// A search has found this slot: 1 is the search for a pattern, 2 the one of dr 3FH.
void want_found(uint8_t search, uint8_t user, uint8_t slot, const char *pattern, uint8_t ex);

// V, logged in. Slots 0 and 1: DRAFT of user 0 in groups 0 and 1; slot 2: DRAFT of user 3; slot 3 is empty; slot 4: FINAL
// of user 0.
#define DRAFT "DRAFT   TXT"
#define FINAL "FINAL   TXT"
void some_files(void);

// The groups of cases.
void paper_examples(void);
void looking_right(void);
void each_function(void);
void kept_together(void);
void several_records(void);
void lent_and_log_in(void);
void malformed_drives(void);
void typing(void);
void why_bad(void);
void each_line(void);
void cut_calls(void);
void hard_disk(void);
void floppies(void);
void on_the_shelf(void);
void fresh_disks(void);
void sigla_by_column(void);
void memory_and_load(void);
void hex_to_cmd(void);
void stack_used(void);

#endif
