/* Checksums by division of polynomials: of 8, 16, 24 and 32 bits, one bit at a time, by a table, and by a table of half a byte. All
   three have to agree; then single bits of the input are changed, and each change has to be seen. */
#include <stdint.h>
#include <stdio.h>

#define ROOM 2048

struct check {
    const char *name;
    int width, is_reflected;
    uint32_t divisor, first, last;
};

static const struct check checks[] = {
    {"crc-8", 8, 0, 0x07, 0, 0},
    {"crc-16/ccitt", 16, 0, 0x1021, 0xffff, 0},
    {"crc-16/arc", 16, 1, 0x8005, 0, 0},
    {"crc-24", 24, 0, 0x864cfb, 0xb704ce, 0},
    {"crc-32", 32, 1, 0x04c11db7, 0xffffffff, 0xffffffff},
    {"crc-32/bzip2", 32, 0, 0x04c11db7, 0xffffffff, 0xffffffff},
};

static uint32_t table[256];

static uint32_t reflected(uint32_t bits, int width) {
    uint32_t turned = 0;
    for (int i = 0; i < width; i++, bits >>= 1)
        turned = turned << 1 | (bits & 1);
    return turned;
}

/* A number of `width` bits, divided `steps` bits further. Reflected ones are shifted to the right. */
static uint32_t divide(const struct check *check, uint32_t rest, int steps) {
    uint32_t top = 1u << (check->width - 1), all = top | (top - 1), divisor = check->divisor;
    if (check->is_reflected)
        divisor = reflected(divisor, check->width);
    while (steps--) {
        if (check->is_reflected)
            rest = rest & 1 ? rest >> 1 ^ divisor : rest >> 1;
        else
            rest = rest & top ? (rest << 1 ^ divisor) & all : rest << 1 & all;
    }
    return rest;
}

static uint32_t by_bits(const struct check *check, const unsigned char *data, int length) {
    uint32_t rest = check->first;
    for (int i = 0; i < length; i++)
        rest = divide(check, rest ^ (check->is_reflected ? data[i] : (uint32_t) data[i] << (check->width - 8)), 8);
    return rest ^ check->last;
}

/* For parts of so many bits. */
static void make_table(const struct check *check, int bits) {
    for (uint32_t i = 0; i < 1u << bits; i++)
        table[i] = divide(check, check->is_reflected ? i : i << (check->width - bits), bits);
}

static uint32_t by_table(const struct check *check, const unsigned char *data, int length, int bits) {
    uint32_t rest = check->first, top = 1u << (check->width - 1), all = top | (top - 1), part = (1u << bits) - 1;
    for (int i = 0; i < length; i++)
        for (int done = 0; done < 8; done += bits) {
            if (check->is_reflected)
                rest = table[(rest ^ data[i] >> done) & part] ^ rest >> bits;
            else
                rest = (table[((rest >> (check->width - bits)) ^ data[i] >> (8 - bits - done)) & part] ^ rest << bits) & all;
        }
    return rest ^ check->last;
}

/* How many changes of one bit in the data are not seen. */
static int unseen(const struct check *check, unsigned char *data, int length, uint32_t sum) {
    int count = 0;
    for (int at = 0; at < length; at += 37) {
        data[at] ^= 1 << at % 8;
        count += by_table(check, data, length, 8) == sum;
        data[at] ^= 1 << at % 8;
    }
    return count;
}

int main(void) {
    static unsigned char data[ROOM];
    int length = fread(data, 1, ROOM, stdin);
    printf("%d bytes\n", length);
    for (const struct check *check = checks; check < checks + sizeof checks / sizeof *checks; check++) {
        uint32_t sum = by_bits(check, data, length);
        make_table(check, 4);
        int is_same = by_table(check, data, length, 4) == sum;
        make_table(check, 8);
        is_same &= by_table(check, data, length, 8) == sum;
        printf("%s: %0*lx, of 123456789 %0*lx, %s, %d changes unseen\n", check->name, check->width / 4, (unsigned long) sum, check->width / 4,
               (unsigned long) by_bits(check, (const unsigned char *) "123456789", 9), is_same ? "the same three times" : "DIFFERENT",
               unseen(check, data, length, sum));
    }
    return 0;
}
