/* The cipher AES with keys of 128, 192 and 256 bits. The table of substitutes is computed from inverses in the field of 256 elements.
   The input is encrypted in a chain of blocks and decrypted again. */
#include <stdint.h>
#include <stdio.h>
#include <string.h>

#define BLOCK 16
#define MOST_ROUNDS 14
#define ROOM 1024

static uint8_t substitute[256], original[256];

struct cipher {
    int rounds;
    uint8_t keys[(MOST_ROUNDS + 1) * BLOCK];
};

/* The product with x, modulo x^8 + x^4 + x^3 + x + 1. */
static uint8_t doubled(uint8_t a) {
    return a << 1 ^ (a >> 7) * 0x1b;
}

static uint8_t product(uint8_t a, uint8_t b) {
    uint8_t sum = 0;
    for (; b; b >>= 1, a = doubled(a))
        if (b & 1)
            sum ^= a;
    return sum;
}

/* Goes through the powers of 3 and of its inverse side by side: they are inverse to each other. */
static void make_tables(void) {
    uint8_t power = 1, inverse = 1;
    do {
        power ^= doubled(power);
        inverse = product(inverse, 0xf6);
        uint8_t bits = inverse, turned = inverse;
        for (int i = 0; i < 4; i++) {
            turned = turned << 1 | turned >> 7;
            bits ^= turned;
        }
        substitute[power] = bits ^ 0x63;
    } while (power != 1);
    substitute[0] = 0x63;
    for (int i = 0; i < 256; i++)
        original[substitute[i]] = i;
}

static void set_key(struct cipher *cipher, const uint8_t *key, int words) {
    uint8_t constant = 1;
    cipher->rounds = words + 6;
    memcpy(cipher->keys, key, 4 * words);
    for (int i = words; i < 4 * (cipher->rounds + 1); i++) {
        uint8_t word[4], *to = cipher->keys + 4 * i;
        memcpy(word, to - 4, 4);
        if (i % words == 0) {
            uint8_t first = word[0];
            for (int k = 0; k < 4; k++)
                word[k] = substitute[k < 3 ? word[k + 1] : first];
            word[0] ^= constant;
            constant = doubled(constant);
        } else if (words > 6 && i % words == 4) {
            for (int k = 0; k < 4; k++)
                word[k] = substitute[word[k]];
        }
        for (int k = 0; k < 4; k++)
            to[k] = to[k - 4 * words] ^ word[k];
    }
}

static void add(uint8_t *to, const uint8_t *other) {
    for (int i = 0; i < BLOCK; i++)
        to[i] ^= other[i];
}

/* Substitutes each byte, and turns row r of the columns r places to the left, or back where `step` is 13. */
static void substitute_rows(uint8_t *block, const uint8_t *table, int step) {
    uint8_t from[BLOCK];
    memcpy(from, block, BLOCK);
    for (int i = 0; i < BLOCK; i++)
        block[i] = table[from[(i + i % 4 * (step - 1)) % BLOCK]];
}

static void mix_columns(uint8_t *block) {
    for (uint8_t *a = block; a < block + BLOCK; a += 4) {
        uint8_t all = a[0] ^ a[1] ^ a[2] ^ a[3], first = a[0];
        for (int k = 0; k < 3; k++)
            a[k] ^= all ^ doubled(a[k] ^ a[k + 1]);
        a[3] ^= all ^ doubled(a[3] ^ first);
    }
}

/* The third power of mixing undoes it. */
static void unmix_columns(uint8_t *block) {
    for (uint8_t *a = block; a < block + BLOCK; a += 4) {
        uint8_t even = doubled(doubled(a[0] ^ a[2])), odd = doubled(doubled(a[1] ^ a[3]));
        for (int k = 0; k < 4; k++)
            a[k] ^= k & 1 ? odd : even;
    }
    mix_columns(block);
}

static void encrypt(const struct cipher *cipher, uint8_t *block) {
    add(block, cipher->keys);
    for (int round = 1; round <= cipher->rounds; round++) {
        substitute_rows(block, substitute, 5);
        if (round < cipher->rounds)
            mix_columns(block);
        add(block, cipher->keys + round * BLOCK);
    }
}

static void decrypt(const struct cipher *cipher, uint8_t *block) {
    for (int round = cipher->rounds; round > 0; round--) {
        add(block, cipher->keys + round * BLOCK);
        if (round < cipher->rounds)
            unmix_columns(block);
        substitute_rows(block, original, 13);
    }
    add(block, cipher->keys);
}

static void print(const char *title, const uint8_t *block) {
    printf("%s ", title);
    for (int i = 0; i < BLOCK; i++)
        printf("%02x", block[i]);
    putchar('\n');
}

int main(void) {
    static uint8_t text[ROOM], packed[ROOM], key[32];
    int length = fread(text, 1, ROOM - BLOCK, stdin);
    int padding = BLOCK - length % BLOCK;
    struct cipher cipher;
    memset(text + length, padding, padding);
    length += padding;
    make_tables();
    for (int i = 0; i < 32; i++)
        key[i] = i;
    for (int words = 4; words <= 8; words += 2) {
        uint8_t block[BLOCK], before[BLOCK] = {0};
        for (int i = 0; i < BLOCK; i++)
            block[i] = i * 0x11;
        set_key(&cipher, key, words);
        encrypt(&cipher, block);
        printf("%d bits, ", 32 * words);
        print("one block", block);
        for (int at = 0; at < length; at += BLOCK) {
            memcpy(packed + at, text + at, BLOCK);
            add(packed + at, at ? packed + at - BLOCK : before);
            encrypt(&cipher, packed + at);
        }
        print("the last of the chain", packed + length - BLOCK);
        for (int at = length - BLOCK; at >= 0; at -= BLOCK) {
            decrypt(&cipher, packed + at);
            add(packed + at, at ? packed + at - BLOCK : before);
        }
        printf("%d bytes, %s\n", length, memcmp(text, packed, length) ? "DIFFERENT" : "the same again");
    }
    return 0;
}
