/* What gcc calls to count bits and to turn the bytes of a number round. */
#include "int64.h"

int __clzsi2(uint32_t value) {
    int zeros = 0;
    for (int step = 16; step; step >>= 1)
        if (!(value >> (32 - step))) {
            zeros += step;
            value <<= step;
        }
    return zeros;
}

int __ctzsi2(uint32_t value) {
    return 31 - __clzsi2(value & -value);
}

int __clzdi2(uint64_t value) {
    return value >> 32 ? __clzsi2(value >> 32) : 32 + __clzsi2(value);
}

int __ctzdi2(uint64_t value) {
    return (uint32_t) value ? __ctzsi2(value) : 32 + __ctzsi2(value >> 32);
}

int __ffssi2(uint32_t value) {
    return value ? __ctzsi2(value) + 1 : 0;
}

int __ffsdi2(uint64_t value) {
    return value ? __ctzdi2(value) + 1 : 0;
}

int __popcountsi2(uint32_t value) {
    int ones = 0;
    for (; value; value &= value - 1)
        ones++;
    return ones;
}

int __popcountdi2(uint64_t value) {
    return __popcountsi2(value >> 32) + __popcountsi2(value);
}

int __paritysi2(uint32_t value) {
    return __popcountsi2(value) & 1;
}

int __paritydi2(uint64_t value) {
    return __paritysi2(value >> 32 ^ (uint32_t) value);
}

int __clrsbsi2(int32_t value) {
    uint32_t bits = value < 0 ? ~value : value;
    return bits ? __clzsi2(bits) - 1 : 31;
}

int __clrsbdi2(int64_t value) {
    uint64_t bits = value < 0 ? ~value : value;
    return bits ? __clzdi2(bits) - 1 : 63;
}

uint32_t __bswapsi2(uint32_t value) {
    return value >> 24 | (value >> 8 & 0xff00) | (value << 8 & 0xff0000) | value << 24;
}

uint64_t __bswapdi2(uint64_t value) {
    return (uint64_t) __bswapsi2(value) << 32 | __bswapsi2(value >> 32);
}
