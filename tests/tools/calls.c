/* Stops the program at one of its calls, or has that call and all later ones fail. Calls are counted from 1: with FILES those that write a
 * file (pwrite, write, ftruncate, fsync, fdatasync), else those on the descriptor STREAM (read of 0, write of 1 or 2). At the one whose number
 * is in AT, HOW says what comes: `kill` stops the program before the call, `half` within it, after half of the bytes, `lost` before it with
 * all gone that was not synced, as where the power fails, and `fail` has it fail. With UNSYNCED files are never synced. PIECE is the most bytes
 * that a read of the input gives. The numbers of all calls and of those before the first read of the input are written to the file that
 * COUNTED names. */
#define _GNU_SOURCE
#include <dlfcn.h>
#include <errno.h>
#include <signal.h>
#include <stdlib.h>
#include <string.h>
#include <fcntl.h>
#include <stdio.h>
#include <sys/stat.h>
#include <unistd.h>
#include "steady.h"

static long at, count, piece, before_input = -1;
static int of_files, stream = -1, how, unsynced;

/* What a write has taken from a file that was not synced since: the bytes that stood there, and the file's length. The last one is first. */
struct taken {
    struct taken *before;
    int fd;
    off_t place, length;
    size_t size;
    char bytes[];
};
static struct taken *all_taken;

__attribute__((constructor)) static void begin(void) {
    const char *text = getenv("AT");
    at = text ? atol(text) : 0;
    text = getenv("PIECE");
    piece = text ? atol(text) : 0;
    of_files = getenv("FILES") != NULL;
    text = getenv("STREAM");
    stream = text ? atoi(text) : -1;
    text = getenv("HOW");
    how = text ? text[0] : 'k';
    unsynced = getenv("UNSYNCED") != NULL;
}

static void *next(const char *name) {
    return dlsym(RTLD_NEXT, name);
}

/* Keeps what a write of so many bytes takes, where that may be lost. */
static void take(int fd, size_t size, off_t place) {
    struct stat now;
    struct taken *it;
    if (how != 'l' || fd <= 2 || fstat(fd, &now) || !S_ISREG(now.st_mode)) return;
    it = malloc(sizeof *it + size);
    if (!it) abort();
    it->before = all_taken;
    it->fd = fd;
    it->place = place;
    it->length = now.st_size;
    it->size = 0;
    if (place < now.st_size) {
        ssize_t there = pread(fd, it->bytes, size, place);
        if (there < 0) abort();
        it->size = there;
    }
    all_taken = it;
}

/* A file is synced: nothing of it may be lost. */
static void settle(int fd) {
    struct taken **it = &all_taken;
    while (!unsynced && *it) {
        if ((*it)->fd == fd)
            *it = (*it)->before;
        else
            it = &(*it)->before;
    }
}

/* Gives back all that was taken. */
static void lose(void) {
    ssize_t (*write_at)(int, const void *, size_t, off_t) = next("pwrite");
    int (*cut)(int, off_t) = next("ftruncate");
    for (struct taken *it = all_taken; it; it = it->before)
        if (write_at(it->fd, it->bytes, it->size, it->place) < 0 || cut(it->fd, it->length)) abort();
}

static int is_counted(int fd, int is_read) {
    if (of_files) return fd > 2 && !is_read;
    return fd == stream && is_read == (fd == 0);
}

/* Whether a call is to fail. */
static int fails(int fd, int is_read) {
    if (!is_counted(fd, is_read)) return 0;
    count += 1;
    if (at == 0 || count < at) return 0;
    if (how == 'f') return 1;
    if (how == 'l') lose();
    if (how == 'k' || how == 'l') kill(getpid(), SIGKILL);
    return 0;
}

/* Whether a write is to stop the program within it. */
static int is_torn(int fd) {
    return how == 'h' && at != 0 && count == at && is_counted(fd, 0);
}

static int failed(void) {
    errno = EIO;
    return -1;
}

ssize_t read(int fd, void *to, size_t size) {
    ssize_t (*real)(int, void *, size_t) = next("read");
    if (fd == 0 && before_input < 0) before_input = count;
    if (fails(fd, 1)) return failed();
    return real(fd, to, fd == 0 && piece && size > (size_t)piece ? (size_t)piece : size);
}

ssize_t write(int fd, const void *from, size_t size) {
    ssize_t (*real)(int, const void *, size_t) = next("write");
    if (fails(fd, 0)) return failed();
    if (is_torn(fd)) {
        real(fd, from, size / 2);
        kill(getpid(), SIGKILL);
    }
    take(fd, size, lseek(fd, 0, SEEK_CUR));
    return real(fd, from, size);
}

ssize_t pwrite(int fd, const void *from, size_t size, off_t place) {
    ssize_t (*real)(int, const void *, size_t, off_t) = next("pwrite");
    if (fails(fd, 0)) return failed();
    if (is_torn(fd)) {
        real(fd, from, size / 2, place);
        kill(getpid(), SIGKILL);
    }
    take(fd, size, place);
    return real(fd, from, size, place);
}

ssize_t pwrite64(int fd, const void *from, size_t size, off_t place) {
    return pwrite(fd, from, size, place);
}

int ftruncate(int fd, off_t size) {
    struct stat now;
    int (*real)(int, off_t) = next("ftruncate");
    if (fails(fd, 0)) return failed();
    if (is_torn(fd)) kill(getpid(), SIGKILL);
    if (!fstat(fd, &now) && now.st_size > size) take(fd, now.st_size - size, size);
    else take(fd, 0, size);
    return real(fd, size);
}

int ftruncate64(int fd, off_t size) {
    return ftruncate(fd, size);
}

int fsync(int fd) {
    int (*real)(int) = next("fsync");
    if (fails(fd, 0)) return failed();
    if (is_torn(fd)) kill(getpid(), SIGKILL);
    settle(fd);
    return unsynced ? 0 : real(fd);
}

int fdatasync(int fd) {
    int (*real)(int) = next("fdatasync");
    if (fails(fd, 0)) return failed();
    if (is_torn(fd)) kill(getpid(), SIGKILL);
    settle(fd);
    return unsynced ? 0 : real(fd);
}

/* What was taken from a file that is closed unsynced is given back by another descriptor. */
int close(int fd) {
    int (*real)(int) = next("close");
    int other = -1;
    for (struct taken *it = all_taken; it; it = it->before) {
        if (it->fd != fd) continue;
        if (other < 0) other = dup(fd);
        it->fd = other;
    }
    return real(fd);
}

/* Of several processes, one in another, the one that makes most calls tells. */
__attribute__((destructor)) static void tell(void) {
    const char *path = getenv("COUNTED");
    long all = count, told = -1;
    FILE *file;
    of_files = 0;
    stream = -1;
    file = path ? fopen(path, "r") : NULL;
    if (file) {
        if (fscanf(file, "%ld", &told) != 1) told = -1;
        fclose(file);
    }
    file = path && all > told ? fopen(path, "w") : NULL;
    if (!file) return;
    fprintf(file, "%ld %ld\n", all, before_input);
    fclose(file);
}
