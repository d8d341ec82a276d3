// churawel, one command for the people who edit, over the proved calls of include/churawel.h.
//
// Files, words and exit codes are this program's; what reads or changes a volume is a function at the seam. Every function
// here that can't go on says why on standard error and ends the program: 1 refused, 2 wrong use.
#ifndef TOOL_H
#define TOOL_H

#define _GNU_SOURCE
#include "churawel.h"

#include <stdbool.h>
#include <stdint.h>
#include <sys/stat.h>

enum { RECORD_BYTES = 128, NAME_BYTES = 11, RECORDS_MOST = 65536, END_OF_TEXT = 0x1A, EMPTY = 0xE5 };
enum { DONE = 0, REFUSED = 1, WRONG_USE = 2 };

// The most bytes that a volume and a file have, and the most slots of a directory; and the most bytes of a hex text.
enum { VOLUME_MOST = 8 * 1024 * 1024, FILE_MOST = RECORDS_MOST * RECORD_BYTES, SLOTS_MOST = 2048, TEXT_MOST = 1 << 24 };

struct bytes {
    uint8_t *at;
    size_t count;
};

// ---- words.c: what the program says

void note(const char *format, ...) __attribute__((format(printf, 1, 2)));
_Noreturn void refuse(const char *format, ...) __attribute__((format(printf, 1, 2)));
_Noreturn void wrong_use(const char *format, ...) __attribute__((format(printf, 1, 2)));
// The sentence of a number of refusal.
const char *words_of(uint32_t number);
// Which geometries there are.
extern const char LAWFUL[];
// Refuses by a number of the seam: what it was about, its sentence, the number, and what may help.
_Noreturn void refuse_by(const char *about, uint32_t number, const char *further);
// How an option is spelled, by its letter; nothing for another letter.
const char *option_spelled(int letter);
_Noreturn void show_help(void);
_Noreturn void show_version(void);

// ---- names.c: names typed, and names shown

struct name {
    uint8_t user;
    bool user_typed;
    uint8_t bytes[NAME_BYTES];
};

// Room for a user and a name as shown: 15:, and each byte as \xHH.
enum { SHOWN_MOST = 64 };

uint8_t user_of(const char *typed);
struct name name_of(const char *typed);
// As name_of, where * stands for any rest of the name or of the type.
struct name pattern_of(const char *typed);
struct name in_capitals(struct name name);
bool is_pattern(const struct name *name);
bool matches(const struct name *pattern, const uint8_t *name);
// SIGLA.TXT, without a user.
const char *shown_name(const uint8_t *name, char *shown);
// SIGLA.TXT for user 0, 3:SIGLA.TXT for another.
const char *shown_file(uint8_t user, const uint8_t *name, char *shown);

// ---- geometry.c: which sizes a disk has

struct geometry {
    uint32_t block_bytes, blocks, directory_blocks, placing;
};

struct options;
// A floppy's by its length; else by -g and -f, by the environment, or V's by its length.
struct geometry geometry_of_image(const struct options *options, const char *image, uint64_t image_bytes);
// The same for one image of many, whose geometries may differ: what is said counts where the image has that length, or no known one.
// False, and V's, which log-in then refuses, where nothing is said and the length is not known.
bool geometry_of_one(const struct options *options, uint64_t image_bytes, struct geometry *geometry);
// By -g and -f, else by the environment, else V's.
struct geometry geometry_of_new(const struct options *options);
// The length of an image.
size_t bytes_of(const struct geometry *geometry);
// 1024,40,1, or 1024,243,2 eight-inch.
const char *shown_geometry(const struct geometry *geometry);

// ---- host.c: memory and files of this machine

// So many bytes, all 0; the program's end frees them.
void *room_for(size_t count);
// All bytes of a file, but at most so many; of one that is open, or of the one that has this path.
struct bytes read_all(int from, const char *path, size_t most);
struct bytes read_file(const char *path, size_t most);
// The same of a plain file, into room that is there, with the file's state; nothing, or why it can't be read.
const char *read_into(const char *path, struct bytes *bytes, size_t most, struct stat *state);
// The same, where - is standard input.
struct bytes read_input(const char *path, size_t most);
// A file that was read to be replaced; `path` is free of symbolic links.
struct original {
    char *path;
    int file;
    struct stat state;
};

// Opens an image; to be changed, it is locked until the program ends.
struct original open_image(const char *path, bool to_change);
// The bytes become the file's: the old ones or the new ones are there at any time, whole. What is no plain file, as a
// terminal or another device, is written to as it is.
void replace_file(const char *path, const struct stat *old, struct bytes bytes);
// A file that must not be there before.
void create_file(const char *path, struct bytes bytes);
void write_all(int to, const char *path, struct bytes bytes);
// What a command hands out: a file that is there is replaced only where that is wanted, and never the one that was read.
void write_result(const char *path, const struct stat *source, const char *source_is, bool replace, struct bytes bytes);

// ---- disk.c: an image that is logged in

struct disk {
    const char *path;
    struct original original;
    struct geometry geometry;
    struct bytes volume;
    uint32_t free_blocks;
    struct name aimed;
    uint8_t drive[CHURAWEL_WIDE_DRIVE_BYTES]; // as many of them as its geometry asks for
    uint8_t fcb[CHURAWEL_FCB_BYTES];
    uint8_t buffer[CHURAWEL_BUFFER_BYTES];
};

// A file as the listing has it.
struct listed {
    uint8_t user;
    uint8_t name[NAME_BYTES];
    bool read_only, system;
    uint32_t records, blocks;
};

// Logs a volume in: the seam's answer, and the drive, which has room for the longest.
uint32_t log_in(const struct geometry *geometry, struct bytes volume, uint8_t *drive);
// Reads an image and its geometry, without log-in.
struct disk *read_disk(const struct options *options, const char *path, bool to_change);
// Reads an image and logs it in; a disk that is not sound is refused in words.
struct disk *open_disk(const struct options *options, const char *path, bool to_change);
// Inspects a volume once more before it is written to this path; one that is not sound is refused.
void inspect_written(struct disk *disk, const char *path);
// Writes the changed volume back to its image.
void store_disk(struct disk *disk);
// A number as the seam lays it, low byte first.
uint32_t number_at(const uint8_t *bytes, int count);
// The next file at or after a slot; the slot behind it is noted. False where there is none.
bool next_file(const struct disk *disk, uint32_t *slot, struct listed *file);
// The first file of the user that is meant.
bool find_file(const struct disk *disk, const struct name *pattern, struct listed *file);
// Makes the user current and lays the name into the control block.
void aim(struct disk *disk, const struct name *name);
// Aims at files that are there, as they are typed or in capitals; at the latter where neither are there.
void aim_at(struct disk *disk, struct name typed);
uint32_t call(struct disk *disk, uint8_t function);
// Refuses by a number that was answered of what is aimed at, with what may help.
_Noreturn void refuse_aimed(const struct disk *disk, uint32_t number, const char *about);
// Takes an answer that is no refusal; a refusal is said in words.
void accept_answer(const struct disk *disk, uint8_t function, uint32_t answer, const char *about);
// A call that has to succeed.
void must(struct disk *disk, uint8_t function, const char *about);
// What a call takes from the control block beside the name: rename's new name, attributes, a record's number.
void set_new_name(struct disk *disk, const struct name *name);
void set_attributes(struct disk *disk, const struct listed *file);
void set_record(struct disk *disk, uint32_t record);
uint32_t record_set(const struct disk *disk);

// ---- get.c: a file of a disk

// A file whole; as text, to its first 1AH.
struct bytes file_bytes(struct disk *disk, const char *about, bool text, bool zero_gaps);

// ---- inspect.c: is a disk sound

// Inspects the volume as it is now; in words why it is refused, or nothing. The free blocks are noted in the disk.
const char *inspect(struct disk *disk);

// ---- the commands

struct options {
    const char *geometry, *format;
    const char *gaps;
    int user;
    bool text, replace;
};

enum { ANY_USER = -1 };

struct command {
    const char *name;
    const char *operands;
    const char *takes;              // the letters of its options
    int least, most;                // how many operands
    bool changes;                   // an image
    const char *what;
    void (*run)(const struct options *options, char **operands, int count);
};

extern const struct command COMMANDS[];
extern const int COMMANDS_COUNT;
_Noreturn void show_command_help(const struct command *command);

// The options' letters, one for each; --replace and --gaps have no short form.
enum { GEOMETRY = 'g', FORMAT = 'f', USER = 'u', TEXT = 't', REPLACE = 'R', GAPS = 'G', HELP = 'h', VERSION = 'V' };

void who(const struct options *options, char **operands, int count);
void replace_siglum(const struct options *options, char **operands, int count);
void list(const struct options *options, char **operands, int count);
void check(const struct options *options, char **operands, int count);
void shelf(const struct options *options, char **operands, int count);
void get(const struct options *options, char **operands, int count);
void type(const struct options *options, char **operands, int count);
void put(const struct options *options, char **operands, int count);
void rename_file(const struct options *options, char **operands, int count);
void erase(const struct options *options, char **operands, int count);
void attributes(const struct options *options, char **operands, int count);
void new_image(const struct options *options, char **operands, int count);
void fresh_image(const struct options *options, char **operands, int count);
void gencmd(const struct options *options, char **operands, int count);

#endif
