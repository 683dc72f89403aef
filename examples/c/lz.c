/* A text is compressed by what stands in it before, and unpacked again: a byte below 128 is one character less than
   itself, any other a length and a distance back. */
#include <stdio.h>
#include <string.h>

#define LEAST 3
#define MOST (LEAST + 127)
#define FARTHEST 255

static const char text[] =
    "It was the best of times, it was the worst of times, it was the age of wisdom, it was the age of foolishness, it was "
    "the epoch of belief, it was the epoch of incredulity, it was the season of light, it was the season of darkness, it "
    "was the spring of hope, it was the winter of despair.";

static int length_of_match(const char *left, const char *right, int most) {
    int length = 0;
    while (length < most && left[length] == right[length])
        length++;
    return length;
}

static int compress(unsigned char *to, const char *from, int count) {
    unsigned char *out = to;
    for (int at = 0; at < count;) {
        int best = 0, distance = 0, most = count - at < MOST ? count - at : MOST;
        for (int back = 1; back <= FARTHEST && back <= at; back++) {
            if (from[at - back] != from[at])
                continue;
            int length = length_of_match(from + at - back, from + at, most);
            if (length > best) {
                best = length;
                distance = back;
            }
        }
        if (best >= LEAST) {
            *out++ = 128 + best - LEAST;
            *out++ = distance;
            at += best;
        } else {
            *out++ = from[at++];
        }
    }
    return out - to;
}

static int unpack(char *to, const unsigned char *from, int count) {
    char *out = to;
    for (const unsigned char *end = from + count; from < end;) {
        if (*from < 128) {
            *out++ = *from++;
            continue;
        }
        int length = *from++ - 128 + LEAST, distance = *from++;
        for (; length; length--, out++)
            *out = out[-distance];
    }
    return out - to;
}

int main(void) {
    static unsigned char packed[2 * sizeof text];
    static char unpacked[sizeof text];
    int size = compress(packed, text, sizeof text), back = unpack(unpacked, packed, size);
    unsigned sum = 0;
    for (int i = 0; i < size; i++)
        sum = sum * 31 + packed[i];
    printf("%d bytes, packed %d, sum %08x\n", (int) sizeof text, size, sum);
    puts(unpacked);
    puts(back == sizeof text && !memcmp(text, unpacked, back) ? "as it was" : "WRONG");
    return 0;
}
