/* Products and powers of matrices, and the inverse of one with fractions as whole numbers modulo a prime. */
#include <stdio.h>

#define SIZE 12
#define PRIME 10007

typedef int matrix[SIZE][SIZE];

static void multiply(matrix product, matrix left, matrix right) {
    for (int i = 0; i < SIZE; i++)
        for (int j = 0; j < SIZE; j++) {
            int sum = 0;
            for (int k = 0; k < SIZE; k++)
                sum += left[i][k] * right[k][j] % PRIME;
            product[i][j] = sum % PRIME;
        }
}

static int power(int base, int exponent) {
    int product = 1;
    for (; exponent; exponent >>= 1) {
        if (exponent & 1)
            product = product * base % PRIME;
        base = base * base % PRIME;
    }
    return product;
}

static void scale_row(int *row, int factor) {
    for (int k = 0; k < SIZE; k++)
        row[k] = row[k] * factor % PRIME;
}

/* Takes `factor` times one row from another. */
static void subtract_row(int *row, const int *other, int factor) {
    for (int k = 0; k < SIZE; k++)
        row[k] = ((row[k] - factor * other[k]) % PRIME + PRIME) % PRIME;
}

/* Gauss and Jordan; the matrix has no zero where a pivot is needed. */
static void invert(matrix inverse, matrix given) {
    matrix work;
    for (int i = 0; i < SIZE; i++)
        for (int j = 0; j < SIZE; j++) {
            work[i][j] = given[i][j];
            inverse[i][j] = i == j;
        }
    for (int i = 0; i < SIZE; i++) {
        int factor = power(work[i][i], PRIME - 2);
        scale_row(work[i], factor);
        scale_row(inverse[i], factor);
        for (int j = 0; j < SIZE; j++)
            if (j != i && work[j][i]) {
                int times = work[j][i];
                subtract_row(work[j], work[i], times);
                subtract_row(inverse[j], inverse[i], times);
            }
    }
}

int main(void) {
    matrix given, inverse, product;
    int trace = 0, is_identity = 1;
    for (int i = 0; i < SIZE; i++)
        for (int j = 0; j < SIZE; j++)
            given[i][j] = (i * 17 + j * j * 5 + i * j * 3 + (i == j) * 100) % PRIME;
    multiply(product, given, given);
    for (int i = 0; i < SIZE; i++)
        trace = (trace + product[i][i]) % PRIME;
    invert(inverse, given);
    multiply(product, inverse, given);
    for (int i = 0; i < SIZE; i++)
        for (int j = 0; j < SIZE; j++)
            is_identity &= product[i][j] == (i == j);
    printf("trace of the square %d, inverse times matrix is %s\n", trace, is_identity ? "the identity" : "WRONG");
    return !is_identity;
}
