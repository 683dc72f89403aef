/* The floating-point environment: rounding is to nearest, and no exception is recorded. */
#ifndef _FENV_H
#define _FENV_H

#define FE_TONEAREST 0
#define FE_ALL_EXCEPT 0

typedef int fenv_t;
typedef int fexcept_t;

#define FE_DFL_ENV ((const fenv_t *) 0)

static inline int fegetround(void) {
    return FE_TONEAREST;
}

static inline int fesetround(int mode) {
    return mode != FE_TONEAREST;
}

static inline int feclearexcept(int which) {
    return which != 0;
}

static inline int feraiseexcept(int which) {
    return which != 0;
}

static inline int fetestexcept(int which) {
    (void) which;
    return 0;
}

static inline int fegetenv(fenv_t *to) {
    *to = 0;
    return 0;
}

static inline int feholdexcept(fenv_t *to) {
    *to = 0;
    return 0;
}

static inline int fesetenv(const fenv_t *from) {
    (void) from;
    return 0;
}

static inline int feupdateenv(const fenv_t *from) {
    (void) from;
    return 0;
}

#endif
