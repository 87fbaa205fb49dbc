// Asks a child for answers over pipes, and writes for each the two records that `tmhost` writes, with the same four syncs: the one of
// the field without an answer when its line is sent, and the one of the answer when it came (docs/trust/FORMAT.md, "Append").
#include <errno.h>
#include <fcntl.h>
#include <stdio.h>
#include <stdlib.h>
#include <string.h>
#include <sys/wait.h>
#include <unistd.h>

static void check(int done, const char *what) {
    if (!done) {
        fprintf(stderr, "plain_answers: %s: %s\n", what, strerror(errno));
        exit(1);
    }
}

// The child, the file, and the offset of its closed gate.
static int to_child, from_child, file;
static off_t end = 10;

static void put_length(unsigned char *out, size_t length, int bytes) {
    for (int i = bytes - 1; i >= 0; i--) {
        out[i] = (unsigned char)length;
        length >>= 8;
    }
}

// A record: its bytes behind the gate, a sync, the open gate, a sync.
static void append(const unsigned char *record, size_t length) {
    check(pwrite(file, record, length, end + 1) == (ssize_t)length, "write");
    check(fdatasync(file) == 0, "sync");
    check(pwrite(file, "\x52", 1, end) == 1, "write");
    check(fdatasync(file) == 0, "sync");
    end += (off_t)length;
}

static void start(const char *child, const char *bytes) {
    int in[2], out[2];
    check(pipe(in) == 0 && pipe(out) == 0, "pipe");
    pid_t pid = fork();
    check(pid >= 0, "fork");
    if (pid == 0) {
        dup2(in[0], 0);
        dup2(out[1], 1);
        close(in[0]), close(in[1]), close(out[0]), close(out[1]);
        execl(child, child, bytes, (char *)NULL);
        _exit(1);
    }
    close(in[0]), close(out[1]);
    to_child = in[1], from_child = out[0];
}

// Reads one block behind `from` in the buffer, to its closing byte. The answers have no other.
static size_t receive(unsigned char *buffer, size_t from, size_t room) {
    size_t length = from;
    do {
        size_t most = room - length < 65536 ? room - length : 65536;
        ssize_t got = read(from_child, buffer + length, most);
        check(got > 0, "read");
        length += (size_t)got;
    } while (buffer[length - 1] != 5);
    return length;
}

// Arguments: a new file, the child, how many bytes each of its answers has, how many answers.
int main(int argc, char **argv) {
    if (argc != 5) {
        fprintf(stderr, "usage: plain_answers FILE CHILD BYTES ANSWERS\n");
        return 2;
    }
    size_t room = (size_t)atol(argv[3]) + 4096;
    long answers = atol(argv[4]);
    unsigned char *buffer = malloc(room);
    check(buffer != NULL, "malloc");
    file = open(argv[1], O_RDWR | O_CREAT | O_EXCL | O_CLOEXEC, 0666);
    check(file >= 0, "open");
    check(pwrite(file, "TMWSHEET\1A", 11, 0) == 11, "write");
    check(fdatasync(file) == 0, "sync");
    start(argv[2], argv[3]);
    receive(buffer, 0, room);
    // The length, the kind, the number of the field and the length of the prompt, and the prompt.
    const unsigned char clear[] = {0, 0, 0, 5, 6, 0, 0, 0, 1, 0};
    const unsigned char front[] = {0, 0, 0, 0, 7, 0, 0, 0, 1, 0, 2, '>', ' '};
    for (long i = 0; i < answers; i++) {
        append(clear, sizeof clear);
        check(write(to_child, "x\n", 2) == 2, "write");
        memcpy(buffer, front, sizeof front);
        size_t length = receive(buffer, sizeof front, room - 1);
        put_length(buffer, length - 4, 4);
        buffer[length] = 0;
        append(buffer, length + 1);
    }
    close(to_child);
    check(wait(NULL) > 0, "wait");
    return 0;
}
