/* Blocks of memory. A store of a byte costs four to eight statements and a store of a word one, so blocks go by words
   where both ends allow it. */
#include <stdint.h>
#include <string.h>

#define WORD sizeof(uint32_t)

/* Whether both blocks begin at a word, or both as far behind one. */
static int go_together(const void *left, const void *right) {
    return (((uintptr_t) left ^ (uintptr_t) right) & (WORD - 1)) == 0;
}

static int begins_word(const void *at) {
    return ((uintptr_t) at & (WORD - 1)) == 0;
}

void *memcpy(void *restrict to, const void *restrict from, size_t count) {
    unsigned char *into = to;
    const unsigned char *out = from;
    if (go_together(to, from)) {
        for (; count && !begins_word(into); count--)
            *into++ = *out++;
        for (; count >= WORD; count -= WORD, into += WORD, out += WORD)
            *(uint32_t *) into = *(const uint32_t *) out;
    }
    while (count--)
        *into++ = *out++;
    return to;
}

/* From the last byte to the first. */
static void copy_down(unsigned char *into, const unsigned char *out, size_t count) {
    into += count;
    out += count;
    if (go_together(into, out)) {
        for (; count && !begins_word(into); count--)
            *--into = *--out;
        for (; count >= WORD; count -= WORD) {
            into -= WORD;
            out -= WORD;
            *(uint32_t *) into = *(const uint32_t *) out;
        }
    }
    while (count--)
        *--into = *--out;
}

void *memmove(void *to, const void *from, size_t count) {
    if ((uintptr_t) to - (uintptr_t) from >= count)
        return memcpy(to, from, count);
    copy_down(to, from, count);
    return to;
}

void *memset(void *to, int byte, size_t count) {
    unsigned char *into = to;
    uint32_t word = byte & 255;
    word |= word << 8;
    word |= word << 16;
    for (; count && !begins_word(into); count--)
        *into++ = byte;
    for (; count >= WORD; count -= WORD, into += WORD)
        *(uint32_t *) into = word;
    while (count--)
        *into++ = byte;
    return to;
}

int memcmp(const void *left, const void *right, size_t count) {
    const unsigned char *a = left, *b = right;
    if (begins_word(a) && begins_word(b))
        for (; count >= WORD && *(const uint32_t *) a == *(const uint32_t *) b; count -= WORD) {
            a += WORD;
            b += WORD;
        }
    for (; count; count--, a++, b++)
        if (*a != *b)
            return *a - *b;
    return 0;
}

void *memchr(const void *block, int byte, size_t count) {
    const unsigned char *at = block;
    for (; count; count--, at++)
        if (*at == (unsigned char) byte)
            return (void *) at;
    return NULL;
}
