/* What gcc calls with -ftrapv: sums and products of signed numbers that end the program where they are out of range. */
#include <stdlib.h>

#define COMPUTES(name, type, operation)                                                                                          \
    type name(type left, type right) {                                                                                           \
        type result;                                                                                                             \
        if (operation(left, right, &result))                                                                                     \
            abort();                                                                                                             \
        return result;                                                                                                           \
    }

COMPUTES(__addvsi3, int, __builtin_add_overflow)
COMPUTES(__subvsi3, int, __builtin_sub_overflow)
COMPUTES(__mulvsi3, int, __builtin_mul_overflow)
COMPUTES(__addvdi3, long long, __builtin_add_overflow)
COMPUTES(__subvdi3, long long, __builtin_sub_overflow)
COMPUTES(__mulvdi3, long long, __builtin_mul_overflow)

int __negvsi2(int x) {
    return __subvsi3(0, x);
}

int __absvsi2(int x) {
    return x < 0 ? __negvsi2(x) : x;
}

long long __negvdi2(long long x) {
    return __subvdi3(0, x);
}

long long __absvdi2(long long x) {
    return x < 0 ? __negvdi2(x) : x;
}
