/* Eight queens: how many ways there are to place them, and the first one. */
#include <stdio.h>

#define SIZE 8

static int column_of[SIZE];
static int ways;

static void print_board(void) {
    for (int row = 0; row < SIZE; row++) {
        for (int column = 0; column < SIZE; column++)
            putchar(column_of[row] == column ? 'Q' : '.');
        putchar('\n');
    }
}

/* Sets a bit for each column, and each diagonal of either kind, that is taken. */
static void place(int row, unsigned columns, unsigned rising, unsigned falling) {
    if (row == SIZE) {
        if (ways++ == 0)
            print_board();
        return;
    }
    for (int column = 0; column < SIZE; column++) {
        unsigned bit = 1u << column;
        if ((columns | rising | falling) & bit)
            continue;
        column_of[row] = column;
        place(row + 1, columns | bit, (rising | bit) << 1, (falling | bit) >> 1);
    }
}

int main(void) {
    place(0, 0, 0, 0);
    printf("%d ways\n", ways);
    return ways == 92 ? 0 : 1;
}
