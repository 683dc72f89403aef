/* Packs a picture: blocks of 8 by 8 points are turned into cosines, which are rounded the more the finer they are, and the zeros
   between them are counted. Then it is unpacked, and the errors are told. Numbers are fixed-point with 13 bits of fraction.
   The input is a picture of characters from light to dark. */
#include <stdio.h>
#include <stdlib.h>
#include <string.h>

#define SIZE 8
#define BITS 13
#define WIDTH 32
#define HEIGHT 24

static const char shades[] = " .:-=+*#%@";
/* cos(k pi / 16) / 2 in units of 2^-13 */
static const int cosines[] = {4096, 4017, 3784, 3406, 2896, 2276, 1567, 799, 0};

static int basis[SIZE][SIZE];       /* of each frequency at each place */
static int order[SIZE * SIZE];      /* from coarse to fine, along diagonals */
static unsigned char picture[HEIGHT][WIDTH], again[HEIGHT][WIDTH];
static short packed[HEIGHT * WIDTH * 2];

/* cos(k pi / 16) / 2 for any k. */
static int cosine(int k) {
    k %= 32;
    if (k > 16)
        k = 32 - k;
    return k <= 8 ? cosines[k] : -cosines[16 - k];
}

static void make_tables(void) {
    int count = 0;
    for (int frequency = 0; frequency < SIZE; frequency++)
        for (int place = 0; place < SIZE; place++)
            basis[frequency][place] = frequency ? cosine((2 * place + 1) * frequency) : cosines[4];
    for (int sum = 0; sum < 2 * SIZE - 1; sum++)
        for (int i = 0; i <= sum; i++) {
            int row = sum & 1 ? i : sum - i, column = sum - row;
            if (row < SIZE && column < SIZE)
                order[count++] = row * SIZE + column;
        }
}

static int rounded(int number) {
    return (number + (1 << (BITS - 1))) >> BITS;
}

/* The transform of rows or of columns, which are `step` apart, or back. */
static void transform(int *block, int step, int other, int is_back) {
    for (int line = 0; line < SIZE; line++) {
        int *at = block + line * other, from[SIZE];
        for (int i = 0; i < SIZE; i++)
            from[i] = at[i * step];
        for (int i = 0; i < SIZE; i++) {
            int sum = 0;
            for (int k = 0; k < SIZE; k++)
                sum += from[k] * (is_back ? basis[k][i] : basis[i][k]);
            at[i * step] = rounded(sum);
        }
    }
}

static int step_of(int index, int quality) {
    return quality * (2 + index / SIZE + index % SIZE);
}

/* Appends pairs of zeros and a number; answers how many numbers were written. */
static int pack_block(int row, int column, int quality, short *to) {
    int block[SIZE * SIZE], count = 0, zeros = 0;
    for (int i = 0; i < SIZE * SIZE; i++)
        block[i] = picture[row + i / SIZE][column + i % SIZE] * 4 - 512;
    transform(block, 1, SIZE, 0);
    transform(block, SIZE, 1, 0);
    for (int i = 0; i < SIZE * SIZE; i++) {
        int step = step_of(order[i], quality), number = block[order[i]];
        number = (number + (number < 0 ? -step / 2 : step / 2)) / step;
        if (!number) {
            zeros++;
            continue;
        }
        to[count++] = zeros;
        to[count++] = number;
        zeros = 0;
    }
    to[count++] = -1;
    return count;
}

static int unpack_block(int row, int column, int quality, const short *from) {
    int block[SIZE * SIZE] = {0}, count = 0, index = 0;
    while (from[count] >= 0) {
        index += from[count++];
        block[order[index]] = from[count++] * step_of(order[index], quality);
        index++;
    }
    transform(block, SIZE, 1, 1);
    transform(block, 1, SIZE, 1);
    for (int i = 0; i < SIZE * SIZE; i++) {
        int shade = (block[i] + 512 + 2) >> 2;
        again[row + i / SIZE][column + i % SIZE] = shade < 0 ? 0 : shade > 255 ? 255 : shade;
    }
    return count + 1;
}

static void read_picture(void) {
    char line[WIDTH + 2];
    for (int row = 0; row < HEIGHT && fgets(line, sizeof line, stdin); row++)
        for (int column = 0; line[column] && line[column] != '\n'; column++) {
            const char *shade = strchr(shades, line[column]);
            picture[row][column] = shade ? (shade - shades) * 28 : 0;
        }
}

static void print_picture(void) {
    for (int row = 0; row < HEIGHT; row++) {
        int length = WIDTH;
        while (length && again[row][length - 1] < 14)
            length--;
        for (int column = 0; column < length; column++)
            putchar(shades[again[row][column] > 251 ? 9 : (again[row][column] + 14) / 28]);
        putchar('\n');
    }
}

int main(void) {
    read_picture();
    make_tables();
    for (int quality = 1; quality <= 16; quality *= 4) {
        int count = 0, read = 0, worst = 0;
        long sum = 0;
        for (int row = 0; row < HEIGHT; row += SIZE)
            for (int column = 0; column < WIDTH; column += SIZE)
                count += pack_block(row, column, quality, packed + count);
        for (int row = 0; row < HEIGHT; row += SIZE)
            for (int column = 0; column < WIDTH; column += SIZE)
                read += unpack_block(row, column, quality, packed + read);
        for (int i = 0; i < HEIGHT * WIDTH; i++) {
            int error = abs(picture[i / WIDTH][i % WIDTH] - again[i / WIDTH][i % WIDTH]);
            sum += error * error;
            worst = error > worst ? error : worst;
        }
        printf("quality %d: %d numbers for %d points, squares of errors %ld, the largest %d\n", quality, count, HEIGHT * WIDTH, sum, worst);
    }
    print_picture();
    return 0;
}
