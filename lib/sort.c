/* Sorting and searching. qsort merges, so elements that compare as equal stay in their order, as they do by the GNU
   library. Where no memory is left for that it sorts by a heap, and they may change places. */
#include <stdint.h>
#include <stdlib.h>
#include <string.h>

typedef int comparison(const void *, const void *);

static void swap(char *left, char *right, size_t size) {
    if ((((uintptr_t) left | (uintptr_t) right | size) & 3) == 0) {
        for (; size; size -= 4, left += 4, right += 4) {
            uint32_t word = *(uint32_t *) left;
            *(uint32_t *) left = *(uint32_t *) right;
            *(uint32_t *) right = word;
        }
        return;
    }
    for (; size; size--) {
        char byte = *left;
        *left++ = *right;
        *right++ = byte;
    }
}

/* Lets the element at `at` sink until both below it are no greater. Places are in bytes, of `end` bytes in all. */
static void sink(char *base, size_t at, size_t end, size_t size, comparison *compare) {
    for (size_t child; (child = 2 * at + size) < end; at = child) {
        if (child + size < end && compare(base + child, base + child + size) < 0)
            child += size;
        if (compare(base + at, base + child) >= 0)
            return;
        swap(base + at, base + child, size);
    }
}

static void heap_sort(char *first, size_t count, size_t size, comparison *compare) {
    size_t end = count * size;
    for (size_t at = count / 2 * size; at > 0;) {
        at -= size;
        sink(first, at, end, size, compare);
    }
    while (end > size) {
        end -= size;
        swap(first, first + end, size);
        sink(first, 0, end, size, compare);
    }
}

/* Sorts both halves, and merges them: the left one waits in `room`. */
static void merge_sort(char *first, size_t count, size_t size, char *room, comparison *compare) {
    size_t half = count / 2 * size;
    char *right = first + half, *end = first + count * size, *left = room, *left_end = room + half;
    if (count < 2)
        return;
    merge_sort(first, count / 2, size, room, compare);
    merge_sort(right, count - count / 2, size, room, compare);
    memcpy(room, first, half);
    while (left < left_end) {
        char **from = right < end && compare(left, right) > 0 ? &right : &left;
        memcpy(first, *from, size);
        *from += size;
        first += size;
    }
}

void qsort(void *base, size_t count, size_t size, comparison *compare) {
    if (count < 2)
        return;
    char *room = malloc(count / 2 * size);
    if (!room) {
        heap_sort(base, count, size, compare);
        return;
    }
    merge_sort(base, count, size, room, compare);
    free(room);
}

void *bsearch(const void *key, const void *base, size_t count, size_t size, comparison *compare) {
    const char *first = base;
    while (count) {
        size_t half = count / 2;
        const char *middle = first + half * size;
        int order = compare(key, middle);
        if (order == 0)
            return (void *) middle;
        if (order > 0) {
            first = middle + size;
            count -= half + 1;
        } else {
            count = half;
        }
    }
    return NULL;
}
