// The limit program that opening a worksheet is measured against: it maps a journal in area First, and checks by AVX2 what an opening can't leave out.
// These are the gates, the lengths, the code of each op, that its fields and sessions are there, inputs and the spelling of answers
// (docs/trust/FORMAT.md), but not the order of the fields: a Move to where its field stands is taken. It keeps the places of each field's last input
// and last answer alone, and prints how many records there are, and the sum of these places.
#include <fcntl.h>
#include <immintrin.h>
#include <stdint.h>
#include <stdio.h>
#include <stdlib.h>
#include <string.h>
#include <sys/mman.h>
#include <sys/stat.h>
#include <unistd.h>

typedef unsigned char byte;
enum { LONGEST = 33554432, IDS = 1000000, DEEPEST = 32, NAME = 64, SESSIONS = 64, FIELDS = 10000 };

static struct { uint32_t input, answer; } fields[IDS + 1];  // an input of 0: there is no such field
static struct { byte length, name[32]; } sessions[SESSIONS];
static uint32_t session_count, field_count, next_id = 1;

static inline uint32_t number(const byte *at) {
    uint32_t n;
    memcpy(&n, at, 4);
    return __builtin_bswap32(n);
}

static inline uint32_t length_at(const byte *at) { return at[0] << 8 | at[1]; }
static inline __m256i load(const byte *at) { return _mm256_loadu_si256((const __m256i *)at); }
static inline uint32_t equal(__m256i v, char c) { return _mm256_movemask_epi8(_mm256_cmpeq_epi8(v, _mm256_set1_epi8(c))); }
static inline uint32_t below_32(__m256i v) { return _mm256_movemask_epi8(_mm256_cmpeq_epi8(_mm256_min_epu8(v, _mm256_set1_epi8(31)), v)); }

// UTF-8 without a byte below 32 but the one that is allowed.
static int is_text(const byte *at, const byte *end, byte allowed) {
    while (at < end) {
        __m256i v = load(at);
        uint32_t odd = (below_32(v) & ~equal(v, allowed)) | _mm256_movemask_epi8(v), n = odd ? __builtin_ctz(odd) : 32;
        if (n >= end - at)
            return 1;
        at += n;
        if (odd == 0)
            continue;
        if (*at < 0xc2 || *at > 0xf4)
            return 0;
        int more = *at < 0xe0 ? 1 : *at < 0xf0 ? 2 : 3;
        if (more >= end - at)
            return 0;
        byte low = *at == 0xe0 ? 0xa0 : *at == 0xf0 ? 0x90 : 0x80, high = *at == 0xed ? 0x9f : *at == 0xf4 ? 0x8f : 0xbf;
        if (at[1] < low || at[1] > high)
            return 0;
        for (int i = 2; i <= more; i++)
            if ((at[i] & 0xc0) != 0x80)
                return 0;
        at += more + 1;
    }
    return 1;
}

// The canonical spelling of one block, from the 2 to the 5.
static int is_block(const byte *at, const byte *end) {
    if (at == end || *at != 2)
        return 0;
    for (int depth = 0;;) {
        if (depth++ == DEEPEST)
            return 0;
        const byte *name = ++at;
        uint32_t marks;
        do {
            __m256i v = load(at);
            marks = below_32(v) | equal(v, ':') | equal(v, '#');
            at += marks ? __builtin_ctz(marks) : 32;
        } while (marks == 0 && at - name <= NAME);
        if (at >= end || (*at != ':' && *at != '#') || at == name || at - name > NAME)
            return 0;
        for (at++;;) {
            __m256i v = load(at);
            marks = equal(v, 2) | equal(v, 5) | equal(v, 27);
            at += marks ? __builtin_ctz(marks) : 32;
            if (at >= end)
                return 0;
            if (marks == 0)
                continue;
            if (*at == 2)
                break;
            if (*at == 5) {
                at++;
                if (--depth == 0)
                    return at == end;
            } else {
                if (end - at < 2 || (at[1] != 2 && at[1] != 5 && at[1] != 27))
                    return 0;
                at += 2;
            }
        }
    }
}

static inline int is_field(const byte *at) {
    uint32_t id = number(at);
    return id < next_id && fields[id].input != 0;
}

static inline int is_input(const byte *at, const byte *end) {
    return end - at >= 2 && length_at(at) <= 4095 && length_at(at) == end - at - 2 && is_text(at + 2, end, '\t');
}

static int session_of(const byte *name, byte length) {
    for (uint32_t i = 0; i < session_count; i++)
        if (sessions[i].length == length && memcmp(sessions[i].name, name, length) == 0)
            return 1;
    return 0;
}

static int is_session(const byte *at, const byte *end) {
    const byte *name = at + 2, *words = name + at[1] + 2;
    if (at[1] == 0 || at[1] > 32 || words > end || words[-2] > 1 || words[-1] == 0 || words[-1] > 16 || session_of(name, at[1]) || session_count == SESSIONS)
        return 0;
    for (int i = 0; i < at[1]; i++)
        if (!strchr("ABCDEFGHIJKLMNOPQRSTUVWXYZabcdefghijklmnopqrstuvwxyz0123456789_-", name[i]) || name[i] == 0)
            return 0;
    sessions[session_count].length = at[1];
    memcpy(sessions[session_count++].name, name, at[1]);
    const byte *word = words;
    for (int i = 0; i < words[-1]; i++) {
        uint32_t length = end - word < 2 ? 0 : length_at(word);
        if (length == 0 || length > 1024 || length > end - word - 2 || !is_text(word + 2, word + 2 + length, 127))
            return 0;
        word += 2 + length;
    }
    return word == end;
}

// Takes the op of a payload, at this offset of the file.
static int take(const byte *at, const byte *end, uint32_t offset) {
    size_t length = end - at;
    uint32_t id = length >= 5 ? number(at + 1) : 0;
    switch (*at) {
    case 1:
        return length >= 5 && is_session(at, end);
    case 2:
        if (length < 8 || at[5] > length - 8 || !session_of(at + 6, at[5]) || (id != 0 && !is_field(at + 1)) || !is_input(at + 6 + at[5], end) || next_id > IDS || field_count++ == FIELDS)
            return 0;
        fields[next_id++].input = offset + 6 + at[5];
        return 1;
    case 3:
        if (length < 7 || !is_field(at + 1) || !is_input(at + 5, end))
            return 0;
        fields[id].input = offset + 5;
        fields[id].answer = 0;
        return 1;
    case 4:
        if (length != 5 || !is_field(at + 1))
            return 0;
        fields[id].input = fields[id].answer = 0, field_count--;
        return 1;
    case 5:
        return length == 9 && is_field(at + 1) && number(at + 5) != id && (number(at + 5) == 0 || is_field(at + 5));
    case 6:
        if (length != 5 || !is_field(at + 1))
            return 0;
        fields[id].answer = 0;
        return 1;
    case 7:
        if (length < 7 || !is_field(at + 1) || length_at(at + 5) > 1024 || length_at(at + 5) > length - 7 || !is_block(at + 7 + length_at(at + 5), end))
            return 0;
        fields[id].answer = offset + 5;
        return 1;
    case 8:
        if (length != 6 || !is_field(at + 1) || at[5] == 0 || at[5] > 9)
            return 0;
        fields[id].answer = 0;
        return 1;
    case 9:
        if (length != 5 || id < next_id || id > IDS + 1)
            return 0;
        next_id = id;
        return 1;
    }
    return 0;
}

int main(int count, char **words) {
    int file = count == 2 ? open(words[1], O_RDONLY) : -1;
    struct stat status;
    if (file < 0 || fstat(file, &status) < 0)
        return 2;
    // Zeros come after the file, so that no read of 32 bytes leaves it.
    size_t length = status.st_size, room = (length + 8191) / 4096 * 4096;
    byte *bytes = mmap(NULL, room, PROT_READ, MAP_PRIVATE | MAP_ANONYMOUS, -1, 0);
    if (bytes == MAP_FAILED || length < 11 || mmap(bytes, length, PROT_READ, MAP_PRIVATE | MAP_FIXED | MAP_POPULATE, file, 0) == MAP_FAILED)
        return 2;
    if (memcmp(bytes, "TMWSHEET\1A", 10) != 0)
        return 2;
    size_t at = 10, records = 0;
    while (bytes[at] == 0x52) {
        if (length - at < 5)
            goto damaged;
        size_t n = number(bytes + at + 1);
        if (n == 0 || n > LONGEST || n + 6 > length - at || !take(bytes + at + 5, bytes + at + 5 + n, at + 5))
            goto damaged;
        at += 5 + n;
        records++;
    }
    uint64_t sum = 0;
    for (uint32_t id = 1; id < next_id; id++)
        sum += (uint64_t)fields[id].input + fields[id].answer;
    printf("%zu %lu\n", records, sum);
    return 0;
damaged:
    printf("damaged at %zu\n", at);
    return 1;
}
