/* Each name of the library that no other test calls, with an argument that shows that it is the right one. All of them are more than
   a source may have, so each names_*.c calls one function, PART. */
#define _GNU_SOURCE
#include <complex.h>
#include <errno.h>
#include <fenv.h>
#include <getopt.h>
#include <inttypes.h>
#include <limits.h>
#include <locale.h>
#include <math.h>
#include <signal.h>
#include <stdatomic.h>
#include <stdint.h>
#include <stdio.h>
#include <stdlib.h>
#include <string.h>
#include <strings.h>
#include <time.h>
#include <unistd.h>
#include <wchar.h>

int __printf_chk(int flag, const char *format, ...);
int __fprintf_chk(FILE *stream, int flag, const char *format, ...);
int __sprintf_chk(char *to, int flag, size_t room, const char *format, ...);
int __snprintf_chk(char *to, size_t count, int flag, size_t room, const char *format, ...);

#define SHOW(call) printf("%s %.9g\n", #call, (double) (call))
#define SHOW_FLOAT(call) printf("%s %.6g\n", #call, (double) (call))
#define SHOW_BOTH(name, x) SHOW(name(x)), SHOW_FLOAT(name##f(x)), SHOW(name##l(x))
#define SHOW_PAIR(name, x, y) SHOW(name(x, y)), SHOW_FLOAT(name##f(x, y)), SHOW(name##l(x, y))

static void show_functions(void) {
    SHOW_BOTH(exp, 1), SHOW_BOTH(exp2, 3), SHOW_BOTH(expm1, 0.25), SHOW_BOTH(log, 10), SHOW_BOTH(log2, 10);
    SHOW_BOTH(log10, 1000);
    SHOW_BOTH(log1p, 0.5), SHOW_BOTH(cbrt, -27), SHOW_BOTH(sin, 2), SHOW_BOTH(cos, 2), SHOW_BOTH(tan, 2);
    SHOW_BOTH(asin, 0.5);
    SHOW_BOTH(acos, 0.5), SHOW_BOTH(atan, 2), SHOW_BOTH(sinh, 2), SHOW_BOTH(cosh, 2), SHOW_BOTH(tanh, 0.5);
    SHOW_BOTH(asinh, 2);
    SHOW_BOTH(acosh, 2), SHOW_BOTH(atanh, 0.5), SHOW_BOTH(tgamma, 4.5), SHOW_BOTH(lgamma, 4.5), SHOW_BOTH(erf, 0.5);
    SHOW_BOTH(erfc, 0.5);
}

static void show_exact_functions(void) {
    SHOW_BOTH(sqrt, 2), SHOW_BOTH(fabs, -2), SHOW_BOTH(floor, -2.5), SHOW_BOTH(ceil, -2.5), SHOW_BOTH(trunc, -2.5);
    SHOW_BOTH(round, -2.5);
    SHOW_BOTH(rint, -2.5), SHOW_BOTH(nearbyint, 3.5), SHOW_BOTH(lround, -2.5), SHOW_BOTH(lrint, -2.5);
    SHOW_BOTH(llround, -2.5);
    SHOW_BOTH(llrint, 2.5), SHOW_BOTH(ilogb, 10), SHOW_BOTH(logb, 10);
}

static void show_pairs(void) {
    double whole;
    float whole_float;
    int number = 0;
    SHOW_PAIR(pow, 2, 0.5), SHOW_PAIR(hypot, 3, 4), SHOW_PAIR(atan2, -1, -1), SHOW_PAIR(fmod, 7, -2.5);
    SHOW_PAIR(remainder, 7, 2);
    SHOW_PAIR(fmin, 1, 2), SHOW_PAIR(fmax, 1, 2), SHOW_PAIR(fdim, 3, 2), SHOW_PAIR(copysign, 1, -0.0);
    SHOW_PAIR(ldexp, 3, 4);
    SHOW_PAIR(scalbn, 3, 4), SHOW_PAIR(scalbln, 3, 4), SHOW_PAIR(nextafter, 1, 2);
    SHOW(fma(2, 3, 4)), SHOW(fmaf(2, 3, 4)), SHOW(modf(2.75, &whole)), SHOW(modff(2.75f, &whole_float));
    SHOW(frexp(12, &number));
    printf("%g %g %d\n", whole, whole_float, number);
    SHOW(frexpf(12, &number)), SHOW(remquo(29, 4, &number)), SHOW(number & 7), SHOW(remquof(-29, 4, &number));
    SHOW(number < 0 ? -number & 7 : 99);
    SHOW(isnan(nan("")) != 0), SHOW(isnan(nanf("")) != 0), SHOW(__builtin_powi(1.5, number));
    SHOW(__builtin_powif(2, -number));
    SHOW((lgamma(-0.5), signgam));
}

static void show_complex(void) {
    double complex z = 1.5 - 2 * I, w = CMPLX(-0.5, 0.75), results[] = {
        z * w, z / w, conj(z), cproj(z), csqrt(z), cexp(z), clog(z), cpow(z, w), csin(z), ccos(z), ctan(z), csinh(z), ccosh(z), ctanh(z),
        casin(z), cacos(z), catan(z), casinh(z), cacosh(z), catanh(z), csqrt(-4),
    };
    float complex v = z, u = w, others[] = {
        v * u, v / u, conjf(v), cprojf(v), csqrtf(v), cexpf(v), clogf(v), cpowf(v, u), csinf(v), ccosf(v), ctanf(v), csinhf(v), ccoshf(v),
        ctanhf(v), casinf(v), cacosf(v), catanf(v), casinhf(v), cacoshf(v), catanhf(v),
    };
    for (unsigned i = 0; i < sizeof results / sizeof *results; i++)
        printf("%u: %.9g %.9g\n", i, creal(results[i]), cimag(results[i]));
    for (unsigned i = 0; i < sizeof others / sizeof *others; i++)
        printf("%u: %.4g %.4g\n", i, crealf(others[i]), cimagf(others[i]));
    SHOW(cabs(3 + 4 * I)), SHOW(cabsf(3 + 4 * I)), SHOW(carg(I)), SHOW(cargf(I));
    double complex infinite = CMPLX(INFINITY, NAN) * z, by_zero = z / (0 * creal(z));
    SHOW(isinf(creal(infinite)) || isinf(cimag(infinite))), SHOW(isinf(creal(by_zero)) != 0);
}

static void show_integers(void) {
    char *end;
    unsigned seed = 5;
    intmax_t read = 0;
    imaxdiv_t parts = imaxdiv(-7, 2);
    int_fast16_t fast = -3;
    SHOW(abs(-2)), SHOW(labs(-2)), SHOW(llabs(-2)), SHOW(imaxabs(-2)), SHOW(parts.quot), SHOW(parts.rem);
    SHOW(strtoimax("-99x", &end, 10)), SHOW(*end), SHOW(strtoumax("ff", NULL, 16)), SHOW(atoll("-5"));
    SHOW(strtold("2.5", NULL));
    SHOW(sscanf("12 7f", "%" SCNdMAX " %" SCNxFAST16, &read, (uint_fast16_t *) &fast)), SHOW(read), SHOW(fast);
    printf("%" PRIdMAX " %" PRIXLEAST64 " %" PRIuFAST8 " %" PRIoPTR "\n", read, (uint_least64_t) 255, (uint_fast8_t) 7, (uintptr_t) 8);
    SHOW(rand_r(&seed)), SHOW(rand_r(&seed)), SHOW(ffs(8)), SHOW(INTMAX_MAX), SHOW(WINT_MAX == UINT32_MAX);
    SHOW(SIG_ATOMIC_MAX), SHOW(WCHAR_MAX);
}

static void show_atomics(void) {
    static atomic_int number = ATOMIC_VAR_INIT(5);
    static _Atomic long long large;
    static atomic_uchar byte;
    static _Atomic short half;
    static atomic_flag flag = ATOMIC_FLAG_INIT;
    static int plain = 3;
    static struct { int a[5]; } block = {{1, 2, 3, 4, 5}}, copy;
    int expected = 6;
    SHOW(atomic_fetch_add(&number, 2)), SHOW(atomic_fetch_sub(&number, 1)), SHOW(atomic_fetch_or(&number, 8));
    SHOW(atomic_fetch_and(&number, 12));
    SHOW(atomic_fetch_xor(&number, 1)), SHOW(atomic_exchange(&number, 4));
    SHOW(atomic_compare_exchange_strong(&number, &expected, 9)), SHOW(expected);
    SHOW(atomic_compare_exchange_weak(&number, &expected, 9)), SHOW(atomic_load(&number)), atomic_store(&number, 1);
    SHOW(number++), SHOW(number *= 7);
    SHOW(large += 5000000000), SHOW(atomic_fetch_add(&large, 1)), SHOW(--byte), SHOW(half -= 3);
    SHOW(atomic_flag_test_and_set(&flag));
    SHOW(atomic_flag_test_and_set(&flag)), atomic_flag_clear(&flag), SHOW(atomic_flag_test_and_set(&flag));
    atomic_init(&number, 3), SHOW(number);
    __sync_synchronize(), atomic_thread_fence(memory_order_seq_cst), atomic_signal_fence(memory_order_acquire);
    SHOW(__sync_fetch_and_add(&plain, 4)), SHOW(__sync_sub_and_fetch(&plain, 1));
    SHOW(__sync_fetch_and_or(&plain, 1)), SHOW(__sync_nand_and_fetch(&plain, 3));
    SHOW(__sync_bool_compare_and_swap(&plain, -4, 2)), SHOW(__sync_val_compare_and_swap(&plain, 2, 8));
    SHOW(__sync_lock_test_and_set(&plain, 1));
    __sync_lock_release(&plain), SHOW(plain), SHOW(__atomic_fetch_nand(&plain, 1, __ATOMIC_RELAXED));
    SHOW(__atomic_add_fetch(&plain, 5, __ATOMIC_RELEASE));
    __atomic_load(&block, &copy, __ATOMIC_ACQUIRE), SHOW(copy.a[4]), copy.a[0] = 7;
    __atomic_store(&block, &copy, __ATOMIC_RELEASE), SHOW(block.a[0]);
    SHOW(atomic_is_lock_free(&number)), SHOW(kill_dependency(4));
}

static void show_texts(void) {
    char text[120], *line = text;
    wchar_t wide[20] = L"wide";
    struct tm parts = {.tm_year = 126, .tm_mon = 10, .tm_mday = 30, .tm_hour = 20, .tm_min = 4, .tm_sec = 9};
    time_t then = mktime(&parts);
    static const char *const formats[] = {
        "%Y-%m-%d %H:%M:%S", "%a %A %b %B %C %e %p %I %j", "%c|%D|%F|%r|%R|%T|%x|%X", "%G %g %V %U %W %u %w %y %h %n%t%%", "%s",
    };
    for (unsigned i = 0; i < sizeof formats / sizeof *formats; i++)
        SHOW(strftime(text, sizeof text, formats[i], gmtime(&then))), puts(text);
    SHOW(strftime(text, 4, "%Y", &parts));
    parts = (struct tm){.tm_year = 105, .tm_mday = 1}, mktime(&parts), strftime(text, sizeof text, "%G-%V", &parts), puts(text);
    SHOW(wcslen(wide)), SHOW(wcscmp(wide, L"wider")), wcscat(wide, L"r"), SHOW(wcsncmp(wide, L"wider", 5));
    SHOW(wcschr(wide, L'd') - wide);
    SHOW(wcsrchr(wide, L'x') == NULL), SHOW(wcsstr(wide, L"de") - wide), SHOW(wcsspn(wide, L"iw"));
    SHOW(wcscspn(wide, L"e")), SHOW(wmemcmp(wide, L"wi", 2));
    wmemset(wide, L'=', 3), wcsncpy(wide + 4, L"abc", 5), SHOW(wmemchr(wide, L'c', 9) - wide), SHOW(wcsnlen(wide, 2));
    SHOW(mbstowcs(wide, "bytes", 20));
    SHOW(wcstombs(text, wide, sizeof text)), puts(text), SHOW(mbtowc(wide, "x", 1)), SHOW(wctomb(text, L'y'));
    SHOW(mblen("z", 1)), SHOW(btowc('a')), SHOW(wctob(L'a'));
    printf("%ls %lc|%S\n", L"printed", L'w', wide), SHOW(sprintf(text, "%.3ls", L"cut off"));
    __printf_chk(1, "%d %s\n", 4, "checked"), __fprintf_chk(stdout, 1, "%g\n", 2.5);
    SHOW(__sprintf_chk(text, 1, sizeof text, "%05d", 42));
    SHOW(__snprintf_chk(text, 4, 1, sizeof text, "%s", "longer")), puts(text), SHOW(strsep(&line, "n") == text);
    SHOW(strcoll("a", "b") < 0);
}

int main(void) {
    setbuf(stdout, NULL);
    PART();
    return 0;
}
