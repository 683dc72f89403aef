/* Powers of two and of e. */
#include "wide.h"

#define LARGEST_BITS 12             /* 2^(2^12) is far outside of the range of double */
#define SMALLEST_BITS (-66)
#define FAR 5000

/* 2^(i / 32), in units of 2^-63. */
static const uint64_t power[] = {
    0x8000000000000000, 0x82cd8698ac2ba1d7, 0x85aac367cc487b15, 0x88980e8092da8527, 0x8b95c1e3ea8bd6e7,
    0x8ea4398b45cd53c0, 0x91c3d373ab11c336, 0x94f4efa8fef70961, 0x9837f0518db8a96f, 0x9b8d39b9d54e5539,
    0x9ef5326091a111ae, 0xa27043030c496819, 0xa5fed6a9b15138ea, 0xa9a15ab4ea7c0ef8, 0xad583eea42a14ac6,
    0xb123f581d2ac2590, 0xb504f333f9de6484, 0xb8fbaf4762fb9ee9, 0xbd08a39f580c36bf, 0xc12c4cca66709456,
    0xc5672a115506dadd, 0xc9b9bd866e2f27a3, 0xce248c151f8480e4, 0xd2a81d91f12ae45a, 0xd744fccad69d6af4,
    0xdbfbb797daf23755, 0xe0ccdeec2a94e111, 0xe5b906e77c8348a8, 0xeac0c6e7dd24392f, 0xefe4b99bdcdaf5cb,
    0xf5257d152486cc2c, 0xfa83b2db722a033a,
};

/* (ln 2 / 32)^k / k! for k from 1 on */
static const uint64_t series[] = {
    0x058b90bfbe8e7bcd, 0x000f5fdeffc162c7, 0x00001c6b08d704a1, 0x000000276556df75, 0x000000002bb0ffcf,
    0x0000000000286122, 0x0000000000001ffd, 0x0000000000000016,
};

/* 1 / (k + 2)! */
static const uint64_t factorials[] = {
    0x8000000000000000, 0x2aaaaaaaaaaaaaab, 0x0aaaaaaaaaaaaaab, 0x0222222222222222, 0x005b05b05b05b05b,
    0x000d00d00d00d00d, 0x0001a01a01a01a02, 0x00002e3bc74aad8e, 0x0000049f93edde28, 0x0000006b99159fd5,
    0x00000008f76c77fc, 0x00000000b092309d, 0x000000000c9cba54, 0x0000000000d73f9f, 0x00000000000d73fa,
};

static const struct long_wide per_natural = {0xb8aa3b295c17f0bb, 0xbe87fed0691d3e89, -127, 0};

struct wide _wide_exp2(struct long_wide x) {
    int bits = x.power + 128;
    if (!x.upper || bits < SMALLEST_BITS)
        return WIDE_ONE;
    if (bits > LARGEST_BITS)
        return (struct wide){1ull << 63, x.is_negative ? -FAR : FAR, 0};
    uint64_t whole = x.upper, fraction = x.lower;
    _shift_long(&whole, &fraction, -64 - x.power);
    if (x.is_negative) {
        fraction = -fraction;
        whole = ~whole + (fraction == 0);
    }
    uint64_t rest = fraction << 5, base = power[fraction >> 59];
    uint64_t more = _upper_product(_sum_of_powers(series, sizeof series / sizeof *series, rest, 0), rest);
    return (struct wide){base + _upper_product(base, more), (int) whole - 63, 0};
}

struct wide _wide_exp(struct wide x) {
    return _wide_exp2(_long_multiply(per_natural, x));
}

/* e^x - 1: below 1/4 the sum of x^k / k!. */
struct wide _wide_expm1(struct wide x) {
    if (x.power >= -64 - 1)
        return _wide_subtract(_wide_exp(x), WIDE_ONE);
    uint64_t fraction = _wide_fraction(x);
    uint64_t sum = _upper_product(_sum_of_powers(factorials, sizeof factorials / sizeof *factorials, fraction, x.is_negative), fraction);
    struct wide more = _wide_normal((struct wide){sum, -64, x.is_negative});
    return _wide_multiply(x, _wide_add(WIDE_ONE, more));
}
