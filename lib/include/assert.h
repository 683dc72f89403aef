/* A condition that ends the program where it does not hold. */
#include <stdlib.h>

#undef assert
#ifdef NDEBUG
#define assert(condition) ((void) 0)
#else
#define assert(condition) ((condition) ? (void) 0 : _assert_failed(#condition, __FILE__, __LINE__, __func__))
#endif

#ifndef _ASSERT_H
#define _ASSERT_H
_Noreturn void _assert_failed(const char *condition, const char *file, int line, const char *function);
#define static_assert _Static_assert
#endif
