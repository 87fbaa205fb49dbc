// Fails one call of the program that it is loaded into (LD_PRELOAD): the FAIL_AT-th call of the function FAIL_CALL. FAIL_BY is the number
// of the error, or `half` or `none`, for as many bytes. Each call on files is written to FAIL_LOG as a line: its name, its result (an error
// as its number below zero), 1 where it is the one that was failed, the descriptor, a number (how a file is opened or locked, or an
// offset), and the bytes that were written, or the path. Calls on paths outside of the folder FAIL_FOLDER (an interpreter's) aren't
// looked at, and what the program starts is left alone.
#define _GNU_SOURCE
#include <dlfcn.h>
#include <errno.h>
#include <fcntl.h>
#include <stdarg.h>
#include <stdio.h>
#include <stdlib.h>
#include <string.h>
#include <sys/stat.h>
#include <sys/syscall.h>
#include <unistd.h>

static int log_file = -1;
static char call[32], by[16], folder[4096];
static long asked, at;

__attribute__((constructor)) static void begin(void) {
    const char *path = getenv("FAIL_LOG"), *name = getenv("FAIL_CALL"), *number = getenv("FAIL_AT"), *how = getenv("FAIL_BY");
    const char *inside = getenv("FAIL_FOLDER");
    if (!path || !name || !number || !how || !inside) return;
    int fd = syscall(SYS_openat, AT_FDCWD, path, O_WRONLY | O_CREAT | O_TRUNC | O_CLOEXEC, 0666);
    // A high number, so that the program's own files have those that they have without it.
    log_file = fcntl(fd, F_DUPFD_CLOEXEC, 900);
    close(fd);
    snprintf(call, sizeof call, "%s", name);
    snprintf(by, sizeof by, "%s", how);
    snprintf(folder, sizeof folder, "%s", inside);
    at = atol(number);
    for (const char **known = (const char *[]){"LD_PRELOAD", "FAIL_LOG", "FAIL_FOLDER", "FAIL_CALL", "FAIL_AT", "FAIL_BY", NULL}; *known; known++)
        unsetenv(*known);
}

// Whether a path, where there is one, is looked at.
static int is_inside(const char *path) { return !path || *path != '/' || !strncmp(path, folder, strlen(folder)); }

// Whether this call is the one to be failed.
static int is_failed(const char *name, const char *path) { return log_file >= 0 && is_inside(path) && !strcmp(name, call) && ++asked == at; }

static int has_count(void) { return !strcmp(by, "half") || !strcmp(by, "none"); }

// How many of these bytes the failed call moves.
static size_t fewer(size_t count) { return !strcmp(by, "none") ? 0 : count / 2; }

static int refused(void) {
    errno = atoi(by);
    return -1;
}

static void put(const char *text) {
    size_t length = strlen(text), written = 0;
    while (written < length) {
        long count = syscall(SYS_write, log_file, text + written, length - written);
        if (count <= 0) abort();
        written += count;
    }
}

static void put_bytes(const unsigned char *bytes, long count) {
    char *text = malloc(2 * count + 1);
    if (!text) abort();
    for (long n = 0; n < count; n++) sprintf(text + 2 * n, "%02x", bytes[n]);
    text[2 * count] = 0;
    put(text);
    free(text);
}

// Writes a call's line, and gives its result. `errno` stays.
static long noted(const char *name, long result, int failed, int fd, long number, const char *path, const void *bytes) {
    int error = errno;
    char line[128];
    if (log_file < 0 || !is_inside(path)) return result;
    snprintf(line, sizeof line, "%s %ld %d %d %ld ", name, result < 0 ? -(long)error : result, failed, fd, number);
    put(line);
    if (bytes && result > 0) put_bytes(bytes, result);
    put(path ? path : "");
    put("\n");
    errno = error;
    return result;
}

int open(const char *path, int flags, ...) {
    va_list more;
    va_start(more, flags);
    unsigned mode = flags & O_CREAT ? va_arg(more, unsigned) : 0;
    va_end(more);
    int failed = is_failed("open", path);
    int fd = failed ? refused() : syscall(SYS_openat, AT_FDCWD, path, flags, mode);
    return noted("open", fd, failed, fd, flags, path, NULL);
}

ssize_t pread(int fd, void *bytes, size_t count, off_t offset) {
    int failed = is_failed("pread", NULL);
    size_t wanted = failed && has_count() ? fewer(count) : count;
    ssize_t result = failed && !has_count() ? refused() : syscall(SYS_pread64, fd, bytes, wanted, offset);
    return noted("pread", result, failed, fd, offset, NULL, NULL);
}

ssize_t pwrite(int fd, const void *bytes, size_t count, off_t offset) {
    int failed = is_failed("pwrite", NULL);
    size_t wanted = failed && has_count() ? fewer(count) : count;
    ssize_t result = failed && !has_count() ? refused() : syscall(SYS_pwrite64, fd, bytes, wanted, offset);
    return noted("pwrite", result, failed, fd, offset, NULL, bytes);
}

int fsync(int fd) {
    int failed = is_failed("fsync", NULL);
    return noted("fsync", failed ? refused() : syscall(SYS_fsync, fd), failed, fd, 0, NULL, NULL);
}

int fdatasync(int fd) {
    int failed = is_failed("fdatasync", NULL);
    return noted("fdatasync", failed ? refused() : syscall(SYS_fdatasync, fd), failed, fd, 0, NULL, NULL);
}

int flock(int fd, int how) {
    int failed = is_failed("flock", NULL);
    return noted("flock", failed ? refused() : syscall(SYS_flock, fd, how), failed, fd, how, NULL, NULL);
}

int statx(int fd, const char *path, int flags, unsigned mask, struct statx *found) {
    int failed = is_failed("statx", path);
    return noted("statx", failed ? refused() : syscall(SYS_statx, fd, path, flags, mask, found), failed, fd, flags, path, NULL);
}

char *realpath(const char *path, char *resolved) {
    char *(*real)(const char *, char *) = dlsym(RTLD_NEXT, "realpath");
    int failed = is_failed("realpath", path);
    char *found = failed ? (refused(), NULL) : real(path, resolved);
    noted("realpath", found ? 0 : -1, failed, -1, 0, path, NULL);
    return found;
}
