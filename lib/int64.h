/* What gcc calls for integers of 64 bits and for counting bits, by the names that gcc gives it. */
#ifndef _INT64_H
#define _INT64_H

#include <stdint.h>

union words {
    uint64_t value;
    struct {
        uint32_t upper, lower;
    } word;
};

uint64_t __ashldi3(uint64_t value, int count);
uint64_t __lshrdi3(uint64_t value, int count);
int64_t __ashrdi3(int64_t value, int count);
uint64_t __muldi3(uint64_t left, uint64_t right);
uint64_t __udivmoddi4(uint64_t dividend, uint64_t divisor, uint64_t *rest);
uint64_t __udivdi3(uint64_t dividend, uint64_t divisor);
uint64_t __umoddi3(uint64_t dividend, uint64_t divisor);
int64_t __divdi3(int64_t dividend, int64_t divisor);
int64_t __moddi3(int64_t dividend, int64_t divisor);
int __ucmpdi2(uint64_t left, uint64_t right);
int __cmpdi2(int64_t left, int64_t right);
int64_t __negdi2(int64_t value);

int __clzsi2(uint32_t value);
int __ctzsi2(uint32_t value);
int __clzdi2(uint64_t value);
int __ctzdi2(uint64_t value);

#endif
