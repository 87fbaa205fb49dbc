// Writes records to a file with the four calls that a record takes: its bytes, a sync, one byte, a sync.
#include <errno.h>
#include <fcntl.h>
#include <stdio.h>
#include <stdlib.h>
#include <string.h>
#include <unistd.h>

static void check(int done, const char *what) {
    if (!done) {
        fprintf(stderr, "plain_commits: %s: %s\n", what, strerror(errno));
        exit(1);
    }
}

// Arguments: a new file, how many records, how long each is behind its first byte.
int main(int argc, char **argv) {
    if (argc != 4) {
        fprintf(stderr, "usage: plain_commits FILE RECORDS LENGTH\n");
        return 2;
    }
    long records = atol(argv[2]);
    size_t length = (size_t)atol(argv[3]);
    char *record = malloc(length);
    check(record != NULL, "malloc");
    memset(record, 'x', length);
    record[length - 1] = 0;
    int file = open(argv[1], O_RDWR | O_CREAT | O_EXCL | O_CLOEXEC, 0666);
    check(file >= 0, "open");
    off_t end = 10;
    check(pwrite(file, "TMWSHEET\1A", 11, 0) == 11, "write");
    check(fdatasync(file) == 0, "sync");
    for (long i = 0; i < records; i++) {
        check(pwrite(file, record, length, end + 1) == (ssize_t)length, "write");
        check(fdatasync(file) == 0, "sync");
        check(pwrite(file, "\x52", 1, end) == 1, "write");
        check(fdatasync(file) == 0, "sync");
        end += (off_t)length;
    }
    return 0;
}
