// The limit program that `tmhost blocks` is measured against: the same text by AVX2 and by hand, as quick as two pages of C get it, without proofs.
// It maps its input and goes over it once. A line is put together while its block is read; of a block that doesn't end nothing is written.
#include <immintrin.h>
#include <stdint.h>
#include <stdio.h>
#include <stdlib.h>
#include <string.h>
#include <sys/mman.h>
#include <sys/stat.h>
#include <unistd.h>

typedef unsigned char byte;
enum { LONGEST = 1 << 24, DEEPEST = 32, NAME = 64, BUFFER = 1 << 16 };

static const byte *input, *end;
static byte *buffer, *out;                     // what is to be written, and its end
static uint32_t escapes[256], numbers[10000];  // `\x09` of 9; `0042` of 42
static uint32_t pairs[256];                    // of a byte after a 27: what stands for the 27, or for both
static byte lengths[256];                      // of a byte after a 27: how long that is, with the byte where it is text
static byte kinds[256];                        // in a body: 0 of a byte of text, 1 of a control byte of text, itself of 2, 5 and 27

static void flush(void) {
    for (byte *from = buffer; from < out;) {
        ssize_t more = write(1, from, out - from);
        if (more <= 0)
            exit(2);
        from += more;
    }
    out = buffer;
}

static void tell(const char *what, const byte *at) {
    out += sprintf((char *)out, "%s %td\n", what, at - input);
    flush();
    exit(1);
}

static void tell_open(const byte *start) {
    if (end - start < LONGEST)
        tell("unfinished", start);
    tell("fault 3 TooLong", start + LONGEST - 1);
}

// Four bytes are written, of which the number's count.
static inline byte *put_small(byte *to, uint32_t n) {
    int zeros = n < 10 ? 3 : n < 100 ? 2 : n < 1000 ? 1 : 0;
    uint32_t text = numbers[n] >> 8 * zeros;
    memcpy(to, &text, 4);
    return to + 4 - zeros;
}

static inline byte *put_number(byte *to, uint32_t n) {
    if (n < 10000)
        return put_small(to, n);
    to = put_small(to, n / 10000);
    memcpy(to, &numbers[n % 10000], 4);
    return to + 4;
}

static inline byte *put_escape(byte *to, byte c) {
    memcpy(to, &escapes[c], 4);
    return to + 4;
}

static inline __m256i load(const byte *at) { return _mm256_loadu_si256((const __m256i *)at); }
static inline void store(byte *to, __m256i v) { _mm256_storeu_si256((__m256i *)to, v); }

// Bit i is that of byte i.
static inline uint32_t equal(__m256i v, char c) { return _mm256_movemask_epi8(_mm256_cmpeq_epi8(v, _mm256_set1_epi8(c))); }
static inline uint32_t controls(__m256i v) {
    return _mm256_movemask_epi8(_mm256_cmpeq_epi8(_mm256_min_epu8(v, _mm256_set1_epi8(31)), v)) | equal(v, 127);
}

// The escapes of eight control bytes.
static inline void put_eight(byte *to, const byte *at) {
    __m256i v = _mm256_broadcastq_epi64(_mm_loadl_epi64((const __m128i *)at));
    v = _mm256_shuffle_epi8(v, _mm256_setr_epi8(-1, -1, 0, 0, -1, -1, 1, 1, -1, -1, 2, 2, -1, -1, 3, 3, -1, -1, 4, 4, -1, -1, 5, 5, -1, -1, 6, 6, -1, -1, 7, 7));
    __m256i high = _mm256_and_si256(_mm256_srli_epi16(v, 4), _mm256_set1_epi32(0x000f0000)), low = _mm256_and_si256(v, _mm256_set1_epi32(0x0f000000));
    __m256i digits = _mm256_broadcastsi128_si256(_mm_loadu_si128((const __m128i *)"0123456789abcdef"));
    store(to, _mm256_blend_epi16(_mm256_shuffle_epi8(digits, _mm256_or_si256(high, low)), _mm256_set1_epi32('\\' | 'x' << 8), 0x55));
}

static inline int is_mark(byte c) { return c == ':' || c == '#'; }

// Writes the line of the block at `start`, and gives the place after the block.
static const byte *put_block(const byte *start) {
    const byte *at = start, *last = end - start > LONGEST ? start + LONGEST : end;
    byte *second = put_number(out, start - input), number[16], kind;
    *second++ = ' ';
    // The second number has mostly as many digits as the first.
    byte *text = second + (second - out), *to = text;
    for (int depth = 0;;) {
        // A tag begins here.
        if (depth++ == DEEPEST)
            tell("fault 2 TooDeep", at);
        *to++ = '{', at++;
        __m256i v = load(at);
        store(to, v);
        uint32_t marks, n;
        if (is_mark(at[1]) && *at > ' ' && *at < 127 && !is_mark(*at)) {
            at += 2, to += 2;
        } else if ((marks = controls(v) | equal(v, ':') | equal(v, '#')) != 0 && (n = __builtin_ctz(marks)) > 0 && is_mark(at[n])) {
            at += n + 1, to += n + 1;
        } else {
            for (n = 0; at < last && *at >= 32 && !is_mark(*at) && n < NAME; n++, at++)
                to = *at == 127 ? put_escape(to, 127) : (*to = *at, to + 1);
            if (at < last && (n == 0 || !is_mark(*at)))
                tell("fault 1 BadTag", at);
            *to++ = *at++;
        }
        while ((kind = kinds[*at]) != 2 || at >= last) {
            if (at >= last)
                tell_open(start);
            if (kind == 0) {
                do {
                    v = load(at);
                    store(to, v);
                    marks = controls(v), n = marks ? __builtin_ctz(marks) : 32;
                    to += n, at += n;
                } while (marks == 0 && at < last);
            } else if (kind == 1) {
                for (to = put_escape(to, *at++); kinds[*at] == 1 && at < last; to += 4 * n, at += n) {
                    v = load(at), marks = ~(controls(v) & ~(equal(v, 2) | equal(v, 5) | equal(v, 27)));
                    n = marks ? __builtin_ctz(marks) : 32;
                    for (uint32_t i = 0; i < n; i += 8)
                        put_eight(to + 4 * i, at + i);
                }
            } else if (kind == 27) {
                for (; *at == 27 && at < last; at += 2) {
                    memcpy(to, &pairs[at[1]], 4);
                    to[4] = at[1];
                    to += lengths[at[1]];
                    if (kinds[at[1]] == 1) {
                        at++;
                        break;
                    }
                }
            } else {
                *to++ = '}', at++;
                if (--depth == 0)
                    goto closed;
            }
        }
    }
closed:;
    size_t digits = put_number(number, at - input) - number;
    if (second + digits + 1 != text) {
        memmove(second + digits + 1, text, to - text);
        to += second + digits + 1 - text;
    }
    memcpy(second, number, digits);
    second[digits] = ' ';
    *to++ = '\n';
    out = to;
    if (out - buffer >= BUFFER)
        flush();
    return at;
}

int main(void) {
    struct stat status;
    buffer = out = malloc(BUFFER + 4 * (size_t)LONGEST + 4096);
    if (buffer == NULL || fstat(0, &status) < 0 || !S_ISREG(status.st_mode))
        return 2;
    // Zeros come after the input, so that no read of 32 bytes leaves it.
    size_t length = status.st_size, room = (length + 8191) / 4096 * 4096;
    byte *place = mmap(NULL, room, PROT_READ, MAP_PRIVATE | MAP_ANONYMOUS, -1, 0);
    if (place == MAP_FAILED || (length > 0 && mmap(place, length, PROT_READ, MAP_PRIVATE | MAP_FIXED | MAP_POPULATE, 0, 0) == MAP_FAILED))
        return 2;
    input = place, end = place + length;
    char text[8];
    for (int c = 0; c < 256; c++) {
        sprintf(text, "\\x%02x", c);
        memcpy(&escapes[c], text, 4);
        kinds[c] = c == 2 || c == 5 || c == 27 ? c : c < 32 || c == 127;
    }
    for (int c = 0; c < 256; c++)
        pairs[c] = escapes[kinds[c] > 1 ? c : 27], lengths[c] = kinds[c] == 0 ? 5 : 4;
    for (int n = 0; n < 10000; n++) {
        byte digits[4] = {'0' + n / 1000, '0' + n / 100 % 10, '0' + n / 10 % 10, '0' + n % 10};
        memcpy(&numbers[n], digits, 4);
    }
    for (const byte *at = input; at < end;) {
        uint32_t marks = equal(load(at), 2);
        if (marks == 0)
            at += 32;
        else if ((at += __builtin_ctz(marks)) < end)
            at = put_block(at);
    }
    flush();
    return 0;
}
