// Our side of the peer test, beside the tool: what the tool does not do, or does in another way. One file read or written by
// calls, over an image file.
//
//     layer IMAGE B T D PLACING get USER NAME FILE      by sequential reads
//     layer IMAGE B T D PLACING gather USER NAME FILE   by random reads, the last record first
//     layer IMAGE B T D PLACING scatter USER NAME FILE  make, then random writes, the last record first
//     layer IMAGE B T D PLACING append USER NAME FILE   sequential writes from the file's size on
//     layer IMAGE B T D PLACING patch USER NAME FILE N  random writes from record N on
//
// A name is NAME.TYP. A refusal prints its number in brackets, as the tool does, and ends with status 1. The image is written
// back where the call was done.
#include "churawel.h"

#include <ctype.h>
#include <stdio.h>
#include <stdlib.h>
#include <string.h>

enum { RECORD = 128, VOLUME_MOST = 8 * 1024 * 1024, FILE_MOST = 65536 * RECORD };

static uint8_t drive[CHURAWEL_WIDE_DRIVE_BYTES];
static size_t drive_bytes;
static uint8_t volume[VOLUME_MOST];
static size_t volume_bytes;
static uint8_t fcb[36];
static uint8_t buffer[RECORD];

static _Noreturn void fail(const char *what)
{
    fprintf(stderr, "layer: %s\n", what);
    exit(2);
}

static _Noreturn void refused(uint32_t answer)
{
    printf("refused (%u)\n", answer & 0xFFFF);
    exit(1);
}

static size_t load(const char *path, uint8_t *bytes, size_t most)
{
    FILE *file = fopen(path, "rb");
    if (file == NULL)
        fail("a file can't be read");
    size_t n = fread(bytes, 1, most, file);
    if (fgetc(file) != EOF)
        fail("a file is too long");
    fclose(file);
    return n;
}

static void save(const char *path, const uint8_t *bytes, size_t n)
{
    FILE *file = fopen(path, "wb");
    if (file == NULL || fwrite(bytes, 1, n, file) != n || fclose(file) != 0)
        fail("a file can't be written");
}

static uint32_t call(uint8_t function, uint8_t parameter)
{
    return churawel_call(function, parameter, drive, drive_bytes, volume, volume_bytes, fcb, sizeof fcb, buffer,
                         sizeof buffer);
}

// A call that has to be done; a code is no refusal.
static uint32_t must(uint8_t function, uint8_t parameter)
{
    uint32_t answer = call(function, parameter);
    int has_code = function == 15 || function == 16 || function == 17 || function == 18 || function == 22;
    if (answer != 0 && !(has_code && answer < 4))
        refused(answer);
    return answer;
}

// Eleven bytes of NAME.TYP.
static void lay_name(uint8_t *to, const char *name)
{
    memset(to, ' ', 11);
    size_t k = 0;
    for (; *name != '\0' && *name != '.'; name++)
        if (k < 8)
            to[k++] = (uint8_t)toupper((unsigned char)*name);
    for (k = 8; *name != '\0'; name++)
        if (*name != '.' && k < 11)
            to[k++] = (uint8_t)toupper((unsigned char)*name);
}

static void block_for(const char *name)
{
    memset(fcb, 0, sizeof fcb);
    lay_name(fcb + 1, name);
}

static void set_record(uint32_t n)
{
    fcb[33] = (uint8_t)n;
    fcb[34] = (uint8_t)(n >> 8);
    fcb[35] = (uint8_t)(n >> 16);
}

static uint32_t records(void)
{
    must(35, 0);
    return fcb[33] | (uint32_t)fcb[34] << 8 | (uint32_t)fcb[35] << 16;
}

// The sequential position: record n.
static void set_position(uint32_t n)
{
    fcb[12] = n / 128 % 32;
    fcb[14] = (uint8_t)(n / 128 / 32);
    fcb[32] = n % 128;
}

// The file's bytes; each record is read into its place.
static size_t read_file(uint8_t *bytes, int backwards)
{
    uint32_t n = records();
    if (backwards) {
        for (uint32_t i = n; i > 0; i--) {
            set_record(i - 1);
            must(33, 0);
            memcpy(bytes + (size_t)(i - 1) * RECORD, buffer, RECORD);
        }
        return (size_t)n * RECORD;
    }
    must(15, 0);
    uint32_t i = 0, answer;
    for (; (answer = call(20, 0)) == 0; i++)
        memcpy(bytes + (size_t)i * RECORD, buffer, RECORD);
    if (answer != 1)
        refused(answer);
    if (i != n)
        fail("the sequential reads don't end at the file's size");
    must(16, 0);
    return (size_t)n * RECORD;
}

static void write_sequential(const uint8_t *bytes, size_t n)
{
    for (size_t i = 0; i < n; i += RECORD) {
        memcpy(buffer, bytes + i, RECORD);
        must(21, 0);
    }
}

static void write_random(const uint8_t *bytes, size_t n, uint32_t from, int backwards)
{
    uint32_t count = (uint32_t)(n / RECORD);
    for (uint32_t k = 0; k < count; k++) {
        uint32_t i = backwards ? count - 1 - k : k;
        set_record(from + i);
        memcpy(buffer, bytes + (size_t)i * RECORD, RECORD);
        must(34, 0);
    }
}

int main(int count, char **words)
{
    static uint8_t bytes[FILE_MOST];
    if (count < 10)
        fail("too few words");
    const char *image = words[1], *what = words[6], *name = words[8], *path = words[9];
    uint32_t record = count > 10 ? (uint32_t)atoi(words[10]) : 0;
    volume_bytes = load(image, volume, sizeof volume);
    uint32_t block = (uint32_t)atoi(words[2]), total = (uint32_t)atoi(words[3]), directory = (uint32_t)atoi(words[4]);
    drive_bytes = churawel_drive_bytes(total);
    uint32_t answer = churawel_log_in(block, total, directory, (uint32_t)atoi(words[5]), volume, volume_bytes, drive, drive_bytes);
    if ((answer & 0xFFFF) != 0)
        refused(answer);
    must(32, (uint8_t)atoi(words[7]));
    block_for(name);
    if (strcmp(what, "get") == 0 || strcmp(what, "gather") == 0) {
        save(path, bytes, read_file(bytes, strcmp(what, "gather") == 0));
    } else if (strcmp(what, "scatter") == 0) {
        must(22, 0);
        write_random(bytes, load(path, bytes, sizeof bytes), 0, 1);
    } else if (strcmp(what, "append") == 0) {
        set_position(records());
        write_sequential(bytes, load(path, bytes, sizeof bytes));
    } else if (strcmp(what, "patch") == 0) {
        write_random(bytes, load(path, bytes, sizeof bytes), record, 0);
    } else {
        fail("no such command");
    }
    save(image, volume, volume_bytes);
    return 0;
}
