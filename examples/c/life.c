/* The game of life on a torus: a glider comes back to where it was after as many generations as it takes to go round. */
#include <stdio.h>
#include <string.h>

#define SIZE 12
#define GENERATIONS (4 * SIZE)

typedef unsigned char board[SIZE][SIZE];

static int around(board cells, int row, int column) {
    int count = 0;
    for (int down = SIZE - 1; down <= SIZE + 1; down++)
        for (int across = SIZE - 1; across <= SIZE + 1; across++)
            count += cells[(row + down) % SIZE][(column + across) % SIZE];
    return count - cells[row][column];
}

static void step(board cells) {
    board next;
    for (int row = 0; row < SIZE; row++)
        for (int column = 0; column < SIZE; column++) {
            int neighbours = around(cells, row, column);
            next[row][column] = neighbours == 3 || (neighbours == 2 && cells[row][column]);
        }
    memcpy(cells, next, sizeof next);
}

static void print(board cells) {
    for (int row = 0; row < SIZE; row++) {
        for (int column = 0; column < SIZE; column++)
            putchar(cells[row][column] ? '#' : '.');
        putchar('\n');
    }
}

int main(void) {
    static const char *const glider[] = {".#.", "..#", "###"};
    board cells = {{0}}, first;
    for (int row = 0; row < 3; row++)
        for (int column = 0; column < 3; column++)
            cells[row + 1][column + 1] = glider[row][column] == '#';
    memcpy(first, cells, sizeof first);
    for (int generation = 1; generation <= GENERATIONS; generation++) {
        step(cells);
        if (generation == GENERATIONS / 4)
            print(cells);
    }
    puts(memcmp(cells, first, sizeof first) ? "WRONG" : "it came back");
    return 0;
}
