// A plain pass over a journal of News, Sets, Clears and Answers, which it trusts: it keeps the last input and the last answer of each field in memory,
// and prints them as `tmhost show` does. An answer is one text of the format `verbatim`, and each prompt is `> `.
#include <fcntl.h>
#include <stdint.h>
#include <stdio.h>
#include <stdlib.h>
#include <string.h>
#include <sys/stat.h>
#include <unistd.h>

struct field {
    size_t length, answer_length, room;
    char *input, *answer;
};

static struct field fields[1000001];

static uint32_t number(const unsigned char *at) {
    return (uint32_t)at[0] << 24 | (uint32_t)at[1] << 16 | (uint32_t)at[2] << 8 | at[3];
}

int main(int count, char **words) {
    int file = count == 2 ? open(words[1], O_RDONLY) : -1;
    struct stat status;
    if (file < 0 || fstat(file, &status) < 0)
        return 1;
    size_t length = status.st_size, taken = 0;
    unsigned char *bytes = malloc(length);
    while (bytes != NULL && taken < length) {
        ssize_t more = read(file, bytes + taken, length - taken);
        if (more <= 0)
            return 1;
        taken += more;
    }
    size_t at = 10;
    uint32_t next = 1;
    while (at + 5 < length && bytes[at] == 0x52) {
        const unsigned char *payload = bytes + at + 5, *text;
        uint32_t id;
        at += 5 + number(bytes + at + 1);
        if (payload[0] == 2) {
            id = next++;
            text = payload + 6 + payload[5];
        } else if (payload[0] == 3) {
            id = number(payload + 1);
            text = payload + 5;
        } else if (payload[0] == 6) {
            fields[number(payload + 1)].answer_length = 0;
            continue;
        } else if (payload[0] == 7) {
            struct field *field = &fields[number(payload + 1)];
            text = payload + 7 + ((size_t)payload[5] << 8 | payload[6]);
            field->answer_length = bytes + at - text;
            if (field->answer_length > field->room) {
                field->room = field->answer_length;
                field->answer = realloc(field->answer, field->room);
            }
            memcpy(field->answer, text, field->answer_length);
            continue;
        } else {
            continue;
        }
        struct field *field = &fields[id];
        field->length = (size_t)text[0] << 8 | text[1];
        field->answer_length = 0;
        if (field->input == NULL)
            field->input = malloc(4096);
        memcpy(field->input, text + 2, field->length);
    }
    for (uint32_t id = 1; id < next; id++) {
        struct field *field = &fields[id];
        printf("#%u a\n> %.*s\n", id, (int)field->length, field->input);
        if (field->answer_length == 0)
            puts("?");
        else
            printf("%.*s\n", (int)field->answer_length - 11, field->answer + 10);
    }
    return 0;
}
