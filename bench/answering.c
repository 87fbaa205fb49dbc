// An interpreter that answers each line with one block of so many bytes, most of them one letter.
#include <stdio.h>
#include <stdlib.h>
#include <string.h>
#include <unistd.h>

static void put(const char *bytes, size_t length) {
    while (length > 0) {
        ssize_t done = write(1, bytes, length);
        if (done <= 0)
            exit(1);
        bytes += done;
        length -= (size_t)done;
    }
}

// Argument: how many bytes each answer has, 12 at least.
int main(int argc, char **argv) {
    size_t length = argc == 2 ? (size_t)atol(argv[1]) : 0;
    if (length < 12)
        return 2;
    char *answer = malloc(length);
    if (answer == NULL)
        return 1;
    memset(answer, 'y', length);
    memcpy(answer, "\002verbatim:", 10);
    answer[length - 1] = 5;
    put("\002verbatim:\005", 11);
    char line[4096];
    while (fgets(line, sizeof line, stdin) != NULL)
        put(answer, length);
    return 0;
}
