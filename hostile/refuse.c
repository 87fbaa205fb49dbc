// Refuses one growth of the program that it is loaded into (LD_PRELOAD), the REFUSE_AT-th, and writes to the file REFUSE_LOG at
// the end how many were asked for. What the program starts is left alone.
#define _GNU_SOURCE
#include <errno.h>
#include <stdio.h>
#include <stdlib.h>
#include <string.h>

extern void *__libc_malloc(size_t), *__libc_calloc(size_t, size_t), *__libc_realloc(void *, size_t), *__libc_memalign(size_t, size_t);

static long asked, at;
static int counts;
static char log_path[4096];

__attribute__((constructor)) static void begin(void) {
    const char *number = getenv("REFUSE_AT"), *path = getenv("REFUSE_LOG");
    if (!number || !path || strlen(path) >= sizeof log_path) return;
    at = atol(number);
    strcpy(log_path, path);
    unsetenv("LD_PRELOAD");
    unsetenv("REFUSE_AT");
    unsetenv("REFUSE_LOG");
    counts = 1;
}

__attribute__((destructor)) static void end(void) {
    if (!counts) return;
    counts = 0;
    FILE *file = fopen(log_path, "w");
    if (file) {
        fprintf(file, "%ld\n", asked);
        fclose(file);
    }
}

static int refused(void) {
    if (!counts || ++asked != at) return 0;
    errno = ENOMEM;
    return 1;
}

void *malloc(size_t size) { return refused() ? NULL : __libc_malloc(size); }
void *calloc(size_t count, size_t size) { return refused() ? NULL : __libc_calloc(count, size); }
void *realloc(void *old, size_t size) { return refused() ? NULL : __libc_realloc(old, size); }
void *memalign(size_t align, size_t size) { return refused() ? NULL : __libc_memalign(align, size); }
void *aligned_alloc(size_t align, size_t size) { return memalign(align, size); }
int posix_memalign(void **block, size_t align, size_t size) {
    *block = memalign(align, size);
    return *block ? 0 : ENOMEM;
}
