/* malloc, realloc and free under churn: each block is filled with its own pattern and must have it when it is freed. */
#include <stdio.h>
#include <stdlib.h>
#include <string.h>

#define BLOCKS 24
#define ROUNDS 300

static struct {
    unsigned char *bytes;
    unsigned size, pattern;
} blocks[BLOCKS];

static unsigned state = 7;

static unsigned draw(unsigned below) {
    state = state * 1664525 + 1013904223;
    return (state >> 16) % below;
}

static int is_whole(int i, unsigned size) {
    for (unsigned j = 0; j < size; j++)
        if (blocks[i].bytes[j] != (unsigned char) (blocks[i].pattern + j))
            return 0;
    return 1;
}

static void fill(int i) {
    for (unsigned j = 0; j < blocks[i].size; j++)
        blocks[i].bytes[j] = blocks[i].pattern + j;
}

static int resize(int i, unsigned size) {
    unsigned kept = size < blocks[i].size ? size : blocks[i].size;
    unsigned char *bytes = realloc(blocks[i].bytes, size);
    if (!bytes)
        return 0;
    blocks[i].bytes = bytes;
    blocks[i].size = size;
    int is_kept = is_whole(i, kept);
    fill(i);
    return is_kept;
}

int main(void) {
    int faults = 0, resized = 0, freed = 0;
    unsigned live = 0, most = 0;
    for (int round = 0; round < ROUNDS; round++) {
        int i = draw(BLOCKS);
        if (!blocks[i].bytes) {
            blocks[i].size = draw(120) + 1;
            blocks[i].pattern = round;
            blocks[i].bytes = malloc(blocks[i].size);
            fill(i);
        } else if (draw(3) == 0) {
            live -= blocks[i].size;
            faults += !resize(i, draw(200) + 1);
            resized++;
        } else {
            faults += !is_whole(i, blocks[i].size);
            live -= 2 * blocks[i].size;
            free(blocks[i].bytes);
            blocks[i].bytes = NULL;
            freed++;
        }
        live += blocks[i].size;
        most = live > most ? live : most;
    }
    int *zeros = calloc(100, sizeof *zeros), sum = 0;
    for (int i = 0; i < 100; i++)
        sum |= zeros[i];
    void *large = malloc(100000);
    memset(large, 1, 100000);
    free(large);
    printf("%d resized, %d freed, %d faults, zeros %d\n", resized, freed, faults, sum);
    return faults;
}
