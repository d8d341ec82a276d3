// Files of this machine. An image is never opened to be written: its new bytes go to a new file beside it, which is flushed
// and then takes its name.
#include "tool.h"

#include <errno.h>
#include <fcntl.h>
#include <signal.h>
#include <stdio.h>
#include <stdlib.h>
#include <string.h>
#include <sys/file.h>
#include <unistd.h>

static _Noreturn void refuse_file(const char *path, const char *what)
{
    refuse("%s %s: %s", path, what, strerror(errno));
}

static const char *not_read(void)
{
    static char why[128];
    snprintf(why, sizeof why, "can't be read: %s", strerror(errno));
    return why;
}

void *room_for(size_t count)
{
    void *room = calloc(count + 1, 1);
    if (room == NULL)
        refuse("there is not enough memory");
    return room;
}

// Reads to the end, or as far as there is room; false where that fails.
static bool was_read(int from, struct bytes *bytes, size_t most)
{
    for (bytes->count = 0; bytes->count < most;) {
        ssize_t n = read(from, bytes->at + bytes->count, most - bytes->count);
        if (n == 0)
            break;
        if (n < 0 && errno != EINTR)
            return false;
        if (n > 0)
            bytes->count += (size_t)n;
    }
    return true;
}

struct bytes read_all(int from, const char *path, size_t most)
{
    struct bytes bytes = {room_for(most), 0};
    if (!was_read(from, &bytes, most))
        refuse("%s %s", path, not_read());
    return bytes;
}

// Writes all; false where that fails.
static bool written(int to, struct bytes bytes)
{
    while (bytes.count > 0) {
        ssize_t n = write(to, bytes.at, bytes.count);
        if (n < 0 && errno != EINTR)
            return false;
        if (n > 0) {
            bytes.at += n;
            bytes.count -= (size_t)n;
        }
    }
    return true;
}

void write_all(int to, const char *path, struct bytes bytes)
{
    if (!written(to, bytes))
        refuse_file(path, "can't be written");
}

struct bytes read_file(const char *path, size_t most)
{
    int file = open(path, O_RDONLY | O_CLOEXEC);
    if (file < 0)
        refuse_file(path, "can't be read");
    struct bytes bytes = read_all(file, path, most);
    close(file);
    return bytes;
}

struct bytes read_input(const char *path, size_t most)
{
    return strcmp(path, "-") == 0 ? read_all(STDIN_FILENO, "standard input", most) : read_file(path, most);
}

// ---- an image opened

// A new file could take the name of one that nobody may write; that is not wanted.
static void allow_change(const char *path, const struct stat *old)
{
    if ((old->st_mode & (S_IWUSR | S_IWGRP | S_IWOTH)) == 0)
        refuse("%s can't be changed: the file is write-protected on this machine", path);
    if (access(path, W_OK) != 0)
        refuse_file(path, "can't be changed");
}

// Locks the file; true where it still has its name then, since another command may have replaced it just before.
static bool locked(struct original *image, const char *path)
{
    struct stat named;
    if (flock(image->file, LOCK_EX | LOCK_NB) != 0) {
        if (errno == EWOULDBLOCK)
            refuse("%s is being changed by another command; nothing was done", path);
        refuse_file(path, "can't be locked");
    }
    if (stat(image->path, &named) != 0)
        refuse_file(path, "can't be read");
    return named.st_dev == image->state.st_dev && named.st_ino == image->state.st_ino;
}

// Opens a plain file and looks at its state; nothing, or why that can't be.
static const char *why_not_opened(const char *path, int *file, struct stat *state)
{
    *file = open(path, O_RDONLY | O_NONBLOCK | O_CLOEXEC);
    if (*file < 0 || fstat(*file, state) != 0)
        return not_read();
    return S_ISREG(state->st_mode) ? NULL : "can't be an image: it is not a plain file";
}

static void open_file(struct original *image, const char *path)
{
    const char *why = why_not_opened(image->path, &image->file, &image->state);
    if (why != NULL)
        refuse("%s %s", path, why);
}

const char *read_into(const char *path, struct bytes *bytes, size_t most, struct stat *state)
{
    int file;
    const char *why = why_not_opened(path, &file, state);
    if (why == NULL && !was_read(file, bytes, most))
        why = not_read();
    if (file >= 0)
        close(file);
    return why;
}

struct original open_image(const char *path, bool to_change)
{
    struct original image = {realpath(path, NULL), -1, {0}};
    if (image.path == NULL)
        refuse_file(path, "can't be read");
    open_file(&image, path);
    while (to_change && !locked(&image, path)) {
        close(image.file);
        open_file(&image, path);
    }
    if (to_change)
        allow_change(path, &image.state);
    return image;
}

// ---- a file written beside another, which then takes its name

static const char FRESH[] = ".churawel-XXXXXX";

// The folder of a path, with its stroke; nothing for a name alone.
static char *folder_of(const char *path)
{
    const char *stroke = strrchr(path, '/');
    size_t count = stroke == NULL ? 0 : (size_t)(stroke - path + 1);
    return memcpy(room_for(count), path, count);
}

static char *beside(const char *path)
{
    char *folder = folder_of(path), *name = room_for(strlen(folder) + sizeof FRESH);
    return strcat(strcpy(name, folder), FRESH);
}

// The owner is kept where that is allowed, the mode always.
static bool given_mode(int file, const struct stat *old)
{
    if (old == NULL) {
        mode_t mask = umask(0);
        umask(mask);
        return fchmod(file, 0666 & ~mask) == 0;
    }
    if (fchown(file, old->st_uid, old->st_gid) != 0 && fchown(file, (uid_t)-1, old->st_gid) != 0)
        errno = 0;
    return fchmod(file, old->st_mode & 07777) == 0;
}

// The new name itself reaches the disk with its folder. The file's bytes are there already, so a failure loses none.
static void flush_folder(const char *path)
{
    const char *folder = folder_of(path);
    int opened = open(*folder == '\0' ? "." : folder, O_RDONLY | O_DIRECTORY | O_CLOEXEC);
    if (opened >= 0) {
        fsync(opened);
        close(opened);
    }
}

// The signals that a person or a closing terminal sends wait until no file is left half done.
static void hold_signals(void)
{
    sigset_t set;
    sigemptyset(&set);
    sigaddset(&set, SIGINT);
    sigaddset(&set, SIGTERM);
    sigaddset(&set, SIGHUP);
    sigaddset(&set, SIGPIPE);
    sigprocmask(SIG_BLOCK, &set, NULL);
    // A limit on the length of files is an error as others are.
    signal(SIGXFSZ, SIG_IGN);
}

static _Noreturn void give_up(const char *fresh, const char *path, const char *what)
{
    int why = errno;
    unlink(fresh);
    errno = why;
    refuse_file(path, what);
}

// Writes and flushes the new file; hands back its name.
static char *fresh_file(const char *path, const struct stat *old, struct bytes bytes)
{
    char *fresh = beside(path);
    hold_signals();
    int file = mkstemp(fresh);
    if (file < 0)
        refuse_file(path, "can't be written, as no file can be made beside it");
    if (!written(file, bytes) || !given_mode(file, old) || fsync(file) != 0) {
        close(file);
        give_up(fresh, path, "can't be written");
    }
    if (close(file) != 0)
        give_up(fresh, path, "can't be written");
    return fresh;
}

void replace_file(const char *path, const struct stat *old, struct bytes bytes)
{
    if (!S_ISREG(old->st_mode)) {
        int file = open(path, O_WRONLY | O_CLOEXEC);
        if (file < 0)
            refuse_file(path, "can't be written");
        write_all(file, path, bytes);
        return;
    }
    allow_change(path, old);
    char *fresh = fresh_file(path, old, bytes);
    if (rename(fresh, path) != 0)
        give_up(fresh, path, "can't be replaced");
    flush_folder(path);
}

// A second name for the new file is refused where the name is taken. File systems without second names look first.
void create_file(const char *path, struct bytes bytes)
{
    char *fresh = fresh_file(path, NULL, bytes);
    struct stat there;
    bool linked = link(fresh, path) == 0;
    if (!linked && (errno == EPERM || errno == EOPNOTSUPP || errno == ENOSYS)) {
        bool taken = lstat(path, &there) == 0;
        errno = EEXIST;
        if (taken || rename(fresh, path) != 0)
            give_up(fresh, path, "can't be made");
    } else if (!linked) {
        give_up(fresh, path, "can't be made");
    } else {
        unlink(fresh);
    }
    flush_folder(path);
}

void write_result(const char *path, const struct stat *source, const char *source_is, bool replace, struct bytes bytes)
{
    struct stat there;
    if (stat(path, &there) != 0) {
        create_file(path, bytes);
        return;
    }
    if (there.st_dev == source->st_dev && there.st_ino == source->st_ino)
        refuse("%s is %s itself", path, source_is);
    if (S_ISREG(there.st_mode) && !replace)
        refuse("%s is there already; --replace replaces it", path);
    // A symbolic link stays one: the file that it leads to is replaced.
    char *whole = realpath(path, NULL);
    replace_file(whole == NULL ? path : whole, &there, bytes);
}
