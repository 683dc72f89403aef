/* What gcc calls for atomic operations. There is one processor, and an interrupt does not change data of the program: an operation is
   atomic as it is. gcc calls one function for each size in bytes; the order that it passes says nothing here. */
#include <stdint.h>
#include <string.h>

#define NAMED(name) __asm__(#name)

/* The value before the operation, or the one after it, by the names of __sync and of __atomic. */
#define OPERATION(size, type, name, result)                                                                                   \
    type _sync_fetch_##name##_##size(type *at, type operand) NAMED(__sync_fetch_and_##name##_##size);                         \
    type _sync_fetch_##name##_##size(type *at, type operand) {                                                                \
        type before = *at;                                                                                                    \
        *at = result;                                                                                                         \
        return before;                                                                                                        \
    }                                                                                                                         \
    type _sync_##name##_fetch_##size(type *at, type operand) NAMED(__sync_##name##_and_fetch_##size);                         \
    type _sync_##name##_fetch_##size(type *at, type operand) {                                                                \
        type before = *at;                                                                                                    \
        return *at = result;                                                                                                  \
    }                                                                                                                         \
    type _atomic_fetch_##name##_##size(type *at, type operand, int order) NAMED(__atomic_fetch_##name##_##size);              \
    type _atomic_fetch_##name##_##size(type *at, type operand, int order) {                                                   \
        type before = *at;                                                                                                    \
        (void) order;                                                                                                         \
        *at = result;                                                                                                         \
        return before;                                                                                                        \
    }                                                                                                                         \
    type _atomic_##name##_fetch_##size(type *at, type operand, int order) NAMED(__atomic_##name##_fetch_##size);              \
    type _atomic_##name##_fetch_##size(type *at, type operand, int order) {                                                   \
        type before = *at;                                                                                                    \
        (void) order;                                                                                                         \
        return *at = result;                                                                                                  \
    }

#define EXCHANGES(size, type)                                                                                                 \
    type _sync_swap_##size(type *at, type value) NAMED(__sync_lock_test_and_set_##size);                                      \
    type _sync_swap_##size(type *at, type value) {                                                                            \
        type before = *at;                                                                                                    \
        *at = value;                                                                                                          \
        return before;                                                                                                        \
    }                                                                                                                         \
    type _sync_compare_##size(type *at, type expected, type value) NAMED(__sync_val_compare_and_swap_##size);                 \
    type _sync_compare_##size(type *at, type expected, type value) {                                                          \
        type before = *at;                                                                                                    \
        if (before == expected)                                                                                               \
            *at = value;                                                                                                      \
        return before;                                                                                                        \
    }                                                                                                                         \
    _Bool _sync_is_swapped_##size(type *at, type expected, type value) NAMED(__sync_bool_compare_and_swap_##size);            \
    _Bool _sync_is_swapped_##size(type *at, type expected, type value) {                                                      \
        return _sync_compare_##size(at, expected, value) == expected;                                                         \
    }                                                                                                                         \
    type _atomic_load_##size(const type *at, int order) NAMED(__atomic_load_##size);                                          \
    type _atomic_load_##size(const type *at, int order) {                                                                     \
        (void) order;                                                                                                         \
        return *at;                                                                                                           \
    }                                                                                                                         \
    void _atomic_store_##size(type *at, type value, int order) NAMED(__atomic_store_##size);                                  \
    void _atomic_store_##size(type *at, type value, int order) {                                                              \
        (void) order;                                                                                                         \
        *at = value;                                                                                                          \
    }                                                                                                                         \
    type _atomic_exchange_##size(type *at, type value, int order) NAMED(__atomic_exchange_##size);                            \
    type _atomic_exchange_##size(type *at, type value, int order) {                                                           \
        (void) order;                                                                                                         \
        return _sync_swap_##size(at, value);                                                                                  \
    }                                                                                                                         \
    _Bool _atomic_compare_##size(type *at, type *expected, type value, int order, int failed) NAMED(__atomic_compare_exchange_##size); \
    _Bool _atomic_compare_##size(type *at, type *expected, type value, int order, int failed) {                               \
        type before = *at;                                                                                                    \
        (void) order;                                                                                                         \
        (void) failed;                                                                                                        \
        if (before == *expected) {                                                                                            \
            *at = value;                                                                                                      \
            return 1;                                                                                                         \
        }                                                                                                                     \
        *expected = before;                                                                                                   \
        return 0;                                                                                                             \
    }

#define SIZE(size, type)                                                                                                      \
    OPERATION(size, type, add, before + operand)                                                                              \
    OPERATION(size, type, sub, before - operand)                                                                              \
    OPERATION(size, type, and, before &operand)                                                                               \
    OPERATION(size, type, or, before | operand)                                                                               \
    OPERATION(size, type, xor, before ^ operand)                                                                              \
    OPERATION(size, type, nand, ~(before & operand))                                                                          \
    EXCHANGES(size, type)

SIZE(1, uint8_t)
SIZE(2, uint16_t)
SIZE(4, uint32_t)
SIZE(8, uint64_t)

/* Of any size. */
void _atomic_load_any(size_t size, const void *at, void *to, int order) NAMED(__atomic_load);
void _atomic_load_any(size_t size, const void *at, void *to, int order) {
    (void) order;
    memcpy(to, at, size);
}

void _atomic_store_any(size_t size, void *at, const void *from, int order) NAMED(__atomic_store);
void _atomic_store_any(size_t size, void *at, const void *from, int order) {
    (void) order;
    memcpy(at, from, size);
}

void _atomic_exchange_any(size_t size, void *at, const void *from, void *to, int order) NAMED(__atomic_exchange);
void _atomic_exchange_any(size_t size, void *at, const void *from, void *to, int order) {
    (void) order;
    unsigned char *into = at, *before = to;
    for (const unsigned char *value = from; size; size--) {
        unsigned char byte = *value++;
        *before++ = *into;
        *into++ = byte;
    }
}

_Bool _atomic_compare_any(size_t size, void *at, void *expected, const void *from, int order, int failed) NAMED(__atomic_compare_exchange);
_Bool _atomic_compare_any(size_t size, void *at, void *expected, const void *from, int order, int failed) {
    (void) order;
    (void) failed;
    if (memcmp(at, expected, size)) {
        memcpy(expected, at, size);
        return 0;
    }
    memcpy(at, from, size);
    return 1;
}

_Bool _atomic_is_free(size_t size, const void *at) NAMED(__atomic_is_lock_free);
_Bool _atomic_is_free(size_t size, const void *at) {
    (void) at;
    return size <= sizeof(uint64_t);
}
