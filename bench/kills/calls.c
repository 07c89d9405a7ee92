/* Preloaded beside a program: writes down what it does to its files, or lets one of these calls fail.
 *
 * KILLS_TRACE: the file that each write, cut and sync of the database and its log goes to, and each line that the program prints.
 * KILLS_FAIL: the number of the call that fails, from 1 on. KILLS_HOW: how it fails: io, full or short. KILLS_NOSYNC: no sync is made.
 */
#define _GNU_SOURCE
#include <dlfcn.h>
#include <errno.h>
#include <fcntl.h>
#include <stdint.h>
#include <stdio.h>
#include <stdlib.h>
#include <string.h>
#include <sys/types.h>
#include <unistd.h>

static int is_ready, trace = -1, is_short, error = EIO, is_unsynced;
static long failing, calls;
static ssize_t (*real_write)(int, const void *, size_t);
static ssize_t (*real_pwrite)(int, const void *, size_t, off_t);
static ssize_t (*real_pread)(int, void *, size_t, off_t);
static int (*real_ftruncate)(int, off_t);
static int (*real_fsync)(int);
static int (*real_fdatasync)(int);

static void get_ready(void) {
    if (is_ready) return;
    is_ready = 1;
    real_write = dlsym(RTLD_NEXT, "write");
    real_pwrite = dlsym(RTLD_NEXT, "pwrite");
    real_pread = dlsym(RTLD_NEXT, "pread");
    real_ftruncate = dlsym(RTLD_NEXT, "ftruncate");
    real_fsync = dlsym(RTLD_NEXT, "fsync");
    real_fdatasync = dlsym(RTLD_NEXT, "fdatasync");
    const char *path = getenv("KILLS_TRACE"), *number = getenv("KILLS_FAIL"), *how = getenv("KILLS_HOW");
    if (path) {
        int opened = open(path, O_WRONLY | O_CREAT | O_TRUNC, 0600);
        trace = fcntl(opened, F_DUPFD, 200);
        close(opened);
    }
    failing = number ? atol(number) : 0;
    if (how && !strcmp(how, "full")) error = ENOSPC;
    is_short = how && !strcmp(how, "short");
    is_unsynced = getenv("KILLS_NOSYNC") != 0;
}

/* 1 for the database, 2 for its log, 0 for any other file. */
static int which(int file) {
    char link[64], path[512];
    snprintf(link, sizeof link, "/proc/self/fd/%d", file);
    ssize_t length = readlink(link, path, sizeof path - 1);
    if (length < 0) return 0;
    path[length] = 0;
    if (length > 4 && !strcmp(path + length - 4, "-wal")) return 2;
    return length > 3 && !strcmp(path + length - 3, ".db");
}

static int fails(int file) {
    get_ready();
    return failing && which(file) && ++calls == failing;
}

static void record(char kind, int file, uint64_t at, uint64_t length, const void *bytes) {
    unsigned char head[18];
    if (trace < 0) return;
    head[0] = kind;
    head[1] = file;
    memcpy(head + 2, &at, 8);
    memcpy(head + 10, &length, 8);
    real_write(trace, head, sizeof head);
    if (bytes) real_write(trace, bytes, length);
}

ssize_t pwrite(int file, const void *bytes, size_t length, off_t at) {
    if (fails(file)) {
        if (is_short) return real_pwrite(file, bytes, length > 1 ? length / 2 : length, at);
        if (length > 1) real_pwrite(file, bytes, length / 3, at);
        errno = error;
        return -1;
    }
    ssize_t written = real_pwrite(file, bytes, length, at);
    if (written > 0 && which(file)) record('W', which(file), at, written, bytes);
    return written;
}

ssize_t pwrite64(int file, const void *bytes, size_t length, off_t at) { return pwrite(file, bytes, length, at); }

ssize_t pread(int file, void *bytes, size_t length, off_t at) {
    if (fails(file)) {
        if (is_short) return real_pread(file, bytes, length > 1 ? length / 2 : length, at);
        errno = EIO;
        return -1;
    }
    return real_pread(file, bytes, length, at);
}

ssize_t pread64(int file, void *bytes, size_t length, off_t at) { return pread(file, bytes, length, at); }

int ftruncate(int file, off_t length) {
    if (fails(file) && !is_short) {
        errno = error;
        return -1;
    }
    int status = real_ftruncate(file, length);
    if (!status && which(file)) record('T', which(file), length, 0, 0);
    return status;
}

int ftruncate64(int file, off_t length) { return ftruncate(file, length); }

static int synced(int file, int (*sync)(int)) {
    if (is_unsynced) return 0;
    int status = sync(file);
    if (!status && which(file)) record('S', which(file), 0, 0, 0);
    return status;
}

int fsync(int file) {
    if (fails(file) && !is_short) {
        errno = error;
        return -1;
    }
    return synced(file, real_fsync);
}

int fdatasync(int file) {
    if (fails(file) && !is_short) {
        errno = error;
        return -1;
    }
    return synced(file, real_fdatasync);
}

ssize_t write(int file, const void *bytes, size_t length) {
    get_ready();
    ssize_t written = real_write(file, bytes, length);
    if (file == 1 && written > 0) record('P', 0, 0, written, bytes);
    return written;
}
