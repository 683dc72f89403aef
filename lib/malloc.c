/* The heap: what lies between the data and the stack. It is one row of blocks, each a head and then what the program
   got; the first free one that is large enough is taken. A free block takes in those behind it when it is met. */
#include "heap.h"
#include "start.h"
#include <errno.h>
#include <stdint.h>
#include <stdlib.h>
#include <string.h>

#define IS_USED 1u                  /* sizes are multiples of a head, so this bit is free in them */

typedef union {
    uint32_t size;                  /* in bytes, with the head, and IS_USED */
    uint64_t alignment;
} head;

#define HEAD sizeof(head)
#define MARGIN 1024                 /* bytes below the stack that the heap leaves to the functions that are called next */

static head *first, *past;          /* the row, and where it ends */
static head *hint;                  /* no block before it is free */

static head *behind(const head *block) {
    return (head *) ((char *) block + (block->size & ~IS_USED));
}

static void begin(void) {
    first = (head *) (((uintptr_t) _end + HEAD - 1) & -HEAD);
    past = (head *) (((uintptr_t) _limit - STACK) & -HEAD);
    hint = first;
    if (first < past)
        first->size = (char *) past - (char *) first;
    else
        past = first;
}

/* Takes in the free blocks behind a free one. */
static void join(head *block) {
    for (head *next = behind(block); next < past && !(next->size & IS_USED); next = behind(block))
        block->size += next->size;
}

/* Leaves the block `size` bytes and makes a free one of the others. */
static void split(head *block, uint32_t size) {
    if (block->size > size) {
        ((head *) ((char *) block + size))->size = block->size - size;
        block->size = size;
    }
}

static void *no_memory(void) {
    errno = ENOMEM;
    return NULL;
}

/* Lets the stack end at an address: no function may make a frame below it from now on. Answers 0 where the stack is there already. */
static int reserve(char *end) {
    if (end > (char *) __builtin_frame_address(0) - MARGIN)
        return 0;
    if (end > _stack_limit)
        _stack_limit = end;
    return 1;
}

void *malloc(size_t size) {
    if (!first)
        begin();
    if (size > (size_t) ((char *) past - (char *) first))
        return no_memory();
    uint32_t needed = (size + 2 * HEAD - 1) & -HEAD;
    int is_first = 1;
    for (head *block = hint; block < past; block = behind(block)) {
        if (block->size & IS_USED)
            continue;
        join(block);
        if (is_first)
            hint = block;
        is_first = 0;
        if (block->size < needed)
            continue;
        if (!reserve((char *) block + needed + HEAD))
            return no_memory();
        split(block, needed);
        block->size |= IS_USED;
        if (block == hint)
            hint = behind(block);
        return block + 1;
    }
    return no_memory();
}

void free(void *block) {
    if (!block)
        return;
    head *freed = (head *) block - 1;
    freed->size &= ~IS_USED;
    if (freed < hint)
        hint = freed;
}

void *calloc(size_t count, size_t size) {
    if (size && count > SIZE_MAX / size)
        return no_memory();
    void *block = malloc(count * size);
    return block ? memset(block, 0, count * size) : NULL;
}

void *realloc(void *block, size_t size) {
    if (!block)
        return malloc(size);
    size_t room = (((head *) block - 1)->size & ~IS_USED) - HEAD;
    if (size <= room)
        return block;
    void *larger = malloc(size);
    if (larger) {
        memcpy(larger, block, room);
        free(block);
    }
    return larger;
}

#define FULL_ALIGNMENT HEAD          /* of every block */

/* A block that is larger by the alignment; what is before the first aligned address in it becomes a free block. */
void *aligned_alloc(size_t alignment, size_t size) {
    if (!alignment || alignment & (alignment - 1)) {
        errno = EINVAL;
        return NULL;
    }
    if (alignment <= FULL_ALIGNMENT)
        return malloc(size);
    if (size > SIZE_MAX - alignment)
        return no_memory();
    char *block = malloc(size + alignment);
    if (!block)
        return NULL;
    char *aligned = (char *) (((uintptr_t) block + alignment - 1) & -alignment);
    if (aligned == block)
        return block;
    head *outer = (head *) block - 1, *inner = (head *) aligned - 1;
    inner->size = outer->size - (aligned - block);
    outer->size = aligned - block;
    if (outer < hint)
        hint = outer;
    return aligned;
}

int posix_memalign(void **to, size_t alignment, size_t size) {
    if (alignment < sizeof(void *) || alignment & (alignment - 1))
        return EINVAL;
    void *block = aligned_alloc(alignment, size);
    if (!block)
        return ENOMEM;
    *to = block;
    return 0;
}
