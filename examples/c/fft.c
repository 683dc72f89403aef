/* A spectrum: the input has tones, a frequency and a strength each. Their sum is sampled, transformed by halving the number of
   samples again and again, and transformed back. Numbers are fixed-point with 14 bits of fraction. */
#include <stdio.h>
#include <stdlib.h>

#define LEVELS 8
#define SAMPLES (1 << LEVELS)
#define BITS 14
#define FINER 8                     /* how many units of a sample the transform counts in one */

struct complex {
    int real, imaginary;
};

static int sines[SAMPLES];          /* of a turn in SAMPLES parts */

static int rounded_product(int left, int right) {
    return (left * right + (1 << (BITS - 1))) >> BITS;
}

static struct complex half_of(struct complex number) {
    return (struct complex){(number.real + 1) >> 1, (number.imaginary + 1) >> 1};
}

/* The sine of an angle below a quarter of a turn, by its series; angles in parts of the turn. */
static int sine_of(int part) {
    long long x = (long long) part * 6588397 / SAMPLES;         /* 2 pi in units of 2^-20 */
    long long square = x * x >> 20, term = x, sum = x;
    for (int i = 2; i < 14; i += 2) {
        term = -(term * square >> 20) / (i * (i + 1));
        sum += term;
    }
    return (sum + (1 << (19 - BITS))) >> (20 - BITS);
}

static void make_sines(void) {
    for (int i = 0; i <= SAMPLES / 4; i++) {
        int sine = sine_of(i);
        sines[i] = sines[SAMPLES / 2 - i] = sine;
        sines[SAMPLES / 2 + i] = sines[(SAMPLES - i) % SAMPLES] = -sine;
    }
    sines[0] = sines[SAMPLES / 2] = 0;
}

static int reversed(int number) {
    int turned = 0;
    for (int i = 0; i < LEVELS; i++, number >>= 1)
        turned = turned << 1 | (number & 1);
    return turned;
}

/* In place; each level halves the numbers, so that they stay in range, unless it goes back. */
static void transform(struct complex *samples, int is_back) {
    for (int i = 0; i < SAMPLES; i++) {
        int other = reversed(i);
        if (i < other) {
            struct complex kept = samples[i];
            samples[i] = samples[other];
            samples[other] = kept;
        }
    }
    for (int half = 1; half < SAMPLES; half *= 2)
        for (int i = 0; i < half; i++) {
            int angle = i * (SAMPLES / 2 / half);
            int cosine = sines[(angle + SAMPLES / 4) % SAMPLES], sine = is_back ? sines[angle] : -sines[angle];
            for (int at = i; at < SAMPLES; at += 2 * half) {
                struct complex *left = samples + at, *right = left + half;
                int real = rounded_product(right->real, cosine) - rounded_product(right->imaginary, sine);
                int imaginary = rounded_product(right->real, sine) + rounded_product(right->imaginary, cosine);
                *right = (struct complex){left->real - real, left->imaginary - imaginary};
                *left = (struct complex){left->real + real, left->imaginary + imaginary};
                if (!is_back) {
                    *left = half_of(*left);
                    *right = half_of(*right);
                }
            }
        }
}

static int root(unsigned square) {
    unsigned sum = 0;
    for (unsigned bit = 1u << 15; bit; bit >>= 1)
        if ((sum + bit) * (sum + bit) <= square)
            sum += bit;
    return sum;
}

int main(void) {
    static struct complex samples[SAMPLES];
    static int wave[SAMPLES];
    int frequency, strength, worst = 0;
    make_sines();
    while (scanf("%d %d", &frequency, &strength) == 2)
        for (int i = 0; i < SAMPLES; i++)
            wave[i] += strength * sines[(i * frequency & (SAMPLES - 1))] >> BITS;
    for (int i = 0; i < SAMPLES; i++)
        samples[i] = (struct complex){wave[i] * FINER, 0};
    transform(samples, 0);
    for (int i = 0; i < SAMPLES / 2; i++) {
        int size = root(samples[i].real * samples[i].real + samples[i].imaginary * samples[i].imaginary) / FINER;
        if (size > 20)
            printf("%3d: %4d %.*s\n", i, size, size / 20, "################################################################");
    }
    transform(samples, 1);
    for (int i = 0; i < SAMPLES; i++) {
        int error = abs((samples[i].real - wave[i] * FINER) / FINER);
        worst = error > worst ? error : worst;
    }
    printf("%d samples, the largest error after both ways %d\n", SAMPLES, worst);
    return 0;
}
