#!/usr/bin/env python3
"""mathematics.py [NAME ..]: the functions of lib's math.h, compiled by the host's gcc, against the host's in long double.

Each function (all, or those that are named) gets 100,000 random arguments, 2,000 where MX_SAMPLE is set, and a few special ones. The
error is counted in units of the last place of the expected double; more than 1 is a failure, and so is a special value (NaN,
infinity, the sign of a zero, errno) that differs from the host's. Its function for float gets as many, and may be 0.501 units off. It needs gcc and a long double of 64 bits of significand; without
them the status is 77."""
import os
import re
import shutil
import subprocess
import sys
import tempfile

TOP = os.path.dirname(os.path.dirname(os.path.abspath(__file__)))
LIBRARY = f'{TOP}/lib'
MANY = 2_000 if os.environ.get('MX_SAMPLE') else 100_000

# Each function with the ranges that its arguments come from: `bits` is any double, `A:B` is uniform, `eA:B` has an exponent of 2 that is
# uniform, and either sign; `nA:B` is a whole number. A range of two arguments has a comma.
ONE = {
    'exp': 'bits e-60:10 -745:710 -1:1', 'exp2': 'bits e-60:11 -1075:1024 -1:1', 'expm1': 'bits e-70:10 -40:710 -1:1',
    'log': 'bits e-1074:1023 0.5:2 0.99:1.01', 'log2': 'bits e-1074:1023 0.5:2 0.99:1.01', 'log10': 'bits e-1074:1023 0.5:2 0.99:1.01 n1:100000',
    'log1p': 'bits e-1074:1023 -1:1 -0.01:0.01', 'cbrt': 'bits e-1074:1023 -1000:1000 n-1000:1000',
    'sin': 'bits e-1074:1023 -10:10 -1e9:1e9', 'cos': 'bits e-1074:1023 -10:10 -1e9:1e9', 'tan': 'bits e-1074:1023 -10:10 -1e9:1e9',
    'asin': 'bits e-1074:0 -1:1', 'acos': 'bits e-1074:0 -1:1 0.999:1', 'atan': 'bits e-1074:1023 -4:4',
    'sinh': 'bits e-60:10 -711:711 -1:1', 'cosh': 'bits e-60:10 -711:711 -1:1', 'tanh': 'bits e-60:6 -30:30 -1:1',
    'asinh': 'bits e-1074:1023 -4:4', 'acosh': 'bits e0:1023 1:2 1:100', 'atanh': 'bits e-1074:0 -1:1', 'tgamma': 'bits -5:5 0:172 -184:0 n1:171', 'lgamma': '0:1e-10 0:20 0.9:1.1 1.9:2.1 0:1e6 0:3', 'erf': 'bits -6:6 -1:1', 'erfc': 'bits -6:28 -1:1 0:5', 'logb': 'bits e-1074:1023', 'sqrt': 'bits e-1074:1023 n0:1000', 'rint': 'bits -100:100', 'round': 'bits -100:100',
    'floor': 'bits -100:100', 'ceil': 'bits -100:100', 'trunc': 'bits -100:100', 'nearbyint': 'bits -100:100', 'fabs': 'bits',
}
TWO = {
    'pow': 'bits,bits 0.5:2,-1000:1000 e-1074:1023,e-10:10 0.999:1.001,e0:20 0:100,n-320:320 n-100:100,n-60:60 n2:10,-1080:1080',
    'remainder': 'bits,bits e-20:40,e-20:20 n-1000:1000,n-30:30', 'fmod': 'bits,bits e-20:40,e-20:20 n-1000:1000,n-30:30',
    'fdim': 'bits,bits -4:4,-4:4', 'copysign': 'bits,bits',
    'hypot': 'bits,bits e-1074:1023,e-1074:1023 e-10:10,e-10:10 n0:1000,n0:1000', 'atan2': 'bits,bits e-1074:1023,e-1074:1023 -4:4,-4:4',
}
OTHERS = {'fma': 'three', 'remquo': 'quotients', 'wholes': 'wholes'}     # functions of the driver
SPECIALS = ['0.0', '-0.0', '1.0', '-1.0', '0.5', '-0.5', '2.0', '-2.0', '3.0', '-3.0', '10.0', '1000.0', '1e8', '1e22', '0x1p-1074', '-0x1p-1074',
            '0x1p-1022', '0x1.fffffffffffffp1023', '-0x1.fffffffffffffp1023', 'INFINITY', '-INFINITY', 'NAN', '-1024.0', '-1074.0', '-310.0', '1e-300',
            '709.7', '709.79', '710.4', '710.5', '-745.1', '-745.2', '1024.0', '0x1.fffffffffffffp-1', '0x1.0000000000001p0', '0x1.6ac5b262ca1ffp849',
            '0x1p53', '0x1.0p52']

DRIVER = r'''
#include <errno.h>
#include <float.h>
#include <math.h>
#include <stdint.h>
#include <stdio.h>
#include <stdlib.h>
#include <string.h>

extern int our_errno;
static uint64_t state = 88172645463325252u;

static uint64_t next(void) {
    state ^= state << 13;
    state ^= state >> 7;
    state ^= state << 17;
    return state;
}

enum kind { BITS, UNIFORM, EXPONENT, WHOLE };
struct range { enum kind kind; double low, high; };

static double uniform(double low, double high) { return low + (high - low) * (double) (next() >> 11) * 0x1p-53; }

static double take(struct range range) {
    uint64_t bits = next();
    double value;
    switch (range.kind) {
    case BITS: memcpy(&value, &bits, 8); return value;
    case UNIFORM: return uniform(range.low, range.high);
    case EXPONENT: value = ldexp(uniform(1, 2), (int) floor(uniform(range.low, range.high))); return bits & 1 ? -value : value;
    default: return floor(uniform(range.low, range.high + 1));
    }
}

/* Of any bits, or a double of the range that is rounded. */
static float take_float(struct range range) {
    uint32_t bits = next() >> 32;
    float value;
    if (range.kind != BITS) return take(range);
    memcpy(&value, &bits, sizeof value);
    return value;
}

static const double specials[] = {SPECIALS};
static long compared, failures;

/* The error in units of the last place of the expected double. */
static double error_of(double got, long double wanted) {
    double nearest = wanted;
    if (isnan(nearest) || isnan(got)) return isnan(nearest) && isnan(got) ? 0 : HUGE_VAL;
    if (isinf(nearest) || isinf(got)) return nearest == got ? 0 : HUGE_VAL;
    if (nearest == 0 && got == 0) return signbit(nearest) == signbit(got) ? 0 : HUGE_VAL;
    int power;
    frexpl(wanted, &power);
    power -= DBL_MANT_DIG;
    if (power < -1074) power = -1074;
    return fabsl((got - wanted) / ldexpl(1, power));
}

static double judge(const char *name, double x, double y, double got, int error, long double wanted, int wanted_error) {
    double off = error_of(got, wanted);
    int is_edge = fabs(got) <= DBL_MIN || wanted_error == 0;     /* of small numbers C leaves errno open */
    compared++;
    if (off > 1 || (error != wanted_error && !(is_edge && wanted_error != EDOM && error != EDOM))) {
        if (failures++ < 20)
            printf("FAILED: %s(%a, %a): %a and errno %d, expected %a and %d, %.2f units\n", name, x, y, got, error, (double) wanted, wanted_error, off);
        return off;
    }
    return off;
}

#define EACH_SPECIAL (int) (sizeof specials / sizeof *specials)

double our_fma(double, double, double);
double our_nextafter(double, double);

/* fma and nextafter have to be the same number: the host's is right. */
static void three(long many) {
    static const struct range wide = {BITS, 0, 0}, near = {EXPONENT, -3, 3};
    long worst = failures;
    for (long i = 0; i < many; i++) {
        struct range range = i & 1 ? wide : near;
        double x = take(range), y = take(range), z = i % 3 == 0 ? -x * y * (1 + take(near) * 0x1p-52) : i % 3 == 1 ? -x * y : take(range);
        double got = our_fma(x, y, z), wanted = fma(x, y, z);
        double step = our_nextafter(x, z), wanted_step = nextafter(x, z);
        compared += 2;
        if (memcmp(&step, &wanted_step, sizeof step) && !(isnan(step) && isnan(wanted_step)) && failures++ < 20)
            printf("FAILED: nextafter(%a, %a): %a, expected %a\n", x, z, step, wanted_step);
        if (memcmp(&got, &wanted, sizeof got) && !(isnan(got) && isnan(wanted)) && failures++ < 20)
            printf("FAILED: fma(%a, %a, %a): %a, expected %a\n", x, y, z, got, wanted);
    }
    printf("fma and nextafter: %ld differ\n", failures - worst);
}

static void one(const char *name, double (*ours)(double), long double (*theirs)(long double), double (*plain)(double), const struct range *ranges, int count, long many) {
    double worst = 0, at = 0;
    for (long i = -EACH_SPECIAL; i < many; i++) {
        double x = i < 0 ? specials[-i - 1] : take(ranges[i % count]);
        our_errno = 0;
        double got = ours(x);
        errno = 0;
        volatile double known = plain(x);
        int error = errno;
        (void) known;
        double off = judge(name, x, 0, got, our_errno, theirs(x), error);
        if (off > worst) { worst = off; at = x; }
    }
    printf("%s: worst error %.4f units, at %a\n", name, worst, at);
}

/* The error in units of the last place of the expected float. */
static double float_error_of(float got, long double wanted) {
    float nearest = wanted;
    if (isnan(nearest) || isnan(got)) return isnan(nearest) && isnan(got) ? 0 : HUGE_VAL;
    if (isinf(nearest) || isinf(got)) return nearest == got ? 0 : HUGE_VAL;
    if (nearest == 0 && got == 0) return signbit(nearest) == signbit(got) ? 0 : HUGE_VAL;
    int power;
    frexpl(wanted, &power);
    power -= FLT_MANT_DIG;
    if (power < -149) power = -149;
    return fabsl((got - wanted) / ldexpl(1, power));
}

/* A float is rounded from a double, so that it is nearly as near as can be; errno says where the range of float is left. */
static double judge_float(const char *name, float x, float y, float got, int error, long double wanted) {
    double off = float_error_of(got, wanted);
    int is_out = isinf((float) wanted) && isfinite(wanted);
    compared++;
    if ((off > 0.501 || (is_out && error != ERANGE)) && failures++ < 20)
        printf("FAILED: %sf(%a, %a): %a and errno %d, expected %a, %.3f units\n", name, x, y, got, error, (double) wanted, off);
    return off;
}

static void one_float(const char *name, float (*ours)(float), long double (*theirs)(long double), const struct range *ranges, int count, long many) {
    double worst = 0;
    for (long i = -EACH_SPECIAL; i < many; i++) {
        float x = i < 0 ? specials[-i - 1] : take_float(ranges[i % count]);
        our_errno = 0;
        float got = ours(x);
        worst = fmax(worst, judge_float(name, x, 0, got, our_errno, theirs(x)));
    }
    printf("%sf: worst error %.4f units\n", name, worst);
}

static void two_floats(const char *name, float (*ours)(float, float), long double (*theirs)(long double, long double), const struct range *ranges, int count, long many) {
    double worst = 0;
    for (long i = -EACH_SPECIAL * EACH_SPECIAL; i < many; i++) {
        float x = i < 0 ? specials[(-i - 1) / EACH_SPECIAL] : take_float(ranges[i % count * 2]);
        float y = i < 0 ? specials[(-i - 1) % EACH_SPECIAL] : take_float(ranges[i % count * 2 + 1]);
        our_errno = 0;
        float got = ours(x, y);
        worst = fmax(worst, judge_float(name, x, y, got, our_errno, theirs(x, y)));
    }
    printf("%sf: worst error %.4f units\n", name, worst);
}

double our_remquo(double, double, int *);
float our_remquof(float, float, int *);

/* Of the quotient C asks for the sign and the last three bits. */
static void compare_quotient(double x, double y, double got, int quotient, double wanted, int wanted_quotient) {
    compared++;
    if (isnan(got) && isnan(wanted)) return;
    if (got != wanted || (abs(quotient) & 7) != (abs(wanted_quotient) & 7) || (quotient && wanted_quotient && (quotient < 0) != (wanted_quotient < 0)))
        if (failures++ < 20)
            printf("FAILED: remquo(%a, %a): %a and %d, expected %a and %d\n", x, y, got, quotient, wanted, wanted_quotient);
}

static void quotients(long many) {
    static const struct range ranges[] = {{BITS, 0, 0}, {EXPONENT, -20, 40}, {WHOLE, -1000, 1000}, {EXPONENT, -3, 3}, {EXPONENT, 1018, 1023}};
    for (long i = 0; i < many; i++) {
        struct range range = ranges[i % 5];
        double x = take(range), y = take(range);
        int ours = 0, theirs = 0;
        double got = our_remquo(x, y, &ours), wanted = remquo(x, y, &theirs);
        compare_quotient(x, y, got, ours, wanted, theirs);
        float v = take_float(range), w = take_float(range);
        got = our_remquof(v, w, &ours), wanted = remquof(v, w, &theirs);
        compare_quotient(v, w, got, ours, wanted, theirs);
    }
    printf("remquo and remquof: compared %ld quotients\n", 2 * many);
}

int our_ilogb(double), our_ilogbf(float);
long our_lround(double), our_lroundf(float), our_lrint(double), our_lrintf(float);
long long our_llround(double), our_llroundf(float), our_llrint(double), our_llrintf(float);
float our_frexpf(float, int *), our_modff(float, float *), our_ldexpf(float, int), our_scalbnf(float, int), our_fmaf(float, float, float), our_nextafterf(float, float), our_fminf(float, float), our_fmaxf(float, float);
double our_fmin(double, double), our_fmax(double, double);

static void compare_number(const char *name, double x, long long got, long long wanted) {
    compared++;
    if (got != wanted && failures++ < 20)
        printf("FAILED: %s(%a): %lld, expected %lld\n", name, x, got, wanted);
}

static void compare_same(const char *name, float x, float got, float wanted) {
    compared++;
    if (memcmp(&got, &wanted, sizeof got) && !(isnan(got) && isnan(wanted)) && failures++ < 20)
        printf("FAILED: %s(%a): %a, expected %a\n", name, x, got, wanted);
}

/* Whole numbers, and the parts of floats, have to be the same. */
static void wholes(long many) {
    static const struct range small = {UNIFORM, -100, 100}, large = {EXPONENT, -30, 30}, any = {BITS, 0, 0};
    for (long i = 0; i < many; i++) {
        double x = i & 1 ? take(small) : take(large);
        if (i % 16 == 0) x = floor(x) + 0.5;
        float y = x, z = i & 2 ? take_float(any) : take_float(large), w = take_float(large), whole, our_whole;
        int power = 0, our_power = 0;
        if (isnan(z)) z = NAN;              /* the library has one */
        compare_number("ilogb", x, our_ilogb(x), ilogb(x)), compare_number("ilogbf", y, our_ilogbf(y), ilogbf(y));
        compare_number("lround", x, our_lround(x), lround(x)), compare_number("lroundf", y, our_lroundf(y), lroundf(y));
        compare_number("lrint", x, our_lrint(x), lrint(x)), compare_number("lrintf", y, our_lrintf(y), lrintf(y));
        compare_number("llround", x, our_llround(x), llround(x)), compare_number("llroundf", y, our_llroundf(y), llroundf(y));
        compare_number("llrint", x, our_llrint(x), llrint(x)), compare_number("llrintf", y, our_llrintf(y), llrintf(y));
        compare_same("frexpf", z, our_frexpf(z, &our_power), frexpf(z, &power));
        if (isfinite(z)) compare_number("the exponent of frexpf", z, our_power, power);
        compare_same("modff", z, our_modff(z, &our_whole), modff(z, &whole)), compare_same("the whole part of modff", z, our_whole, whole);
        power = (int) (next() % 320) - 160;
        compare_same("ldexpf", z, our_ldexpf(z, power), ldexpf(z, power)), compare_same("scalbnf", z, our_scalbnf(z, power), scalbnf(z, power));
        compare_same("fminf", z, our_fminf(z, w), fminf(z, w)), compare_same("fmaxf", z, our_fmaxf(z, w), fmaxf(z, w));
        compare_same("fmin", z, our_fmin(z, w), fmin(z, w)), compare_same("fmax", z, our_fmax(z, w), fmax(z, w));
        compare_same("nextafterf", z, our_nextafterf(z, w), nextafterf(z, w));
        compare_same("fmaf", z, our_fmaf(z, w, y), fmaf(z, w, y)), compare_same("fmaf", y, our_fmaf(y, w, -y * w), fmaf(y, w, -y * w));
    }
    printf("whole numbers and parts of floats: compared %ld numbers each\n", many);
}

static void two(const char *name, double (*ours)(double, double), long double (*theirs)(long double, long double), double (*plain)(double, double), const struct range *ranges, int count, long many) {
    double worst = 0, at = 0, at_y = 0;
    for (long i = -EACH_SPECIAL * EACH_SPECIAL; i < many; i++) {
        double x = i < 0 ? specials[(-i - 1) / EACH_SPECIAL] : take(ranges[i % count * 2]);
        double y = i < 0 ? specials[(-i - 1) % EACH_SPECIAL] : take(ranges[i % count * 2 + 1]);
        our_errno = 0;
        double got = ours(x, y);
        errno = 0;
        volatile double known = plain(x, y);
        int error = errno;
        (void) known;
        double off = judge(name, x, y, got, our_errno, theirs(x, y), error);
        if (off > worst) { worst = off; at = x; at_y = y; }
    }
    printf("%s: worst error %.4f units, at %a, %a\n", name, worst, at, at_y);
}
'''


def range_of(text):
    if text == 'bits':
        return '{BITS, 0, 0}'
    kind = {'e': 'EXPONENT', 'n': 'WHOLE'}.get(text[0], 'UNIFORM')
    low, high = (text if kind == 'UNIFORM' else text[1:]).split(':')
    return f'{{{kind}, {low}, {high}}}'


def driver(names):
    text = DRIVER.replace('{SPECIALS}', '{' + ', '.join(SPECIALS) + '}')
    calls = []
    for table, count, parameters in ((ONE, 1, 'double'), (TWO, 2, 'double, double')):
        for name, ranges in table.items():
            if name not in names:
                continue
            listed = [range_of(it) for group in ranges.split() for it in group.split(',')]
            text += f'double our_{name}({parameters});\nstatic const struct range of_{name}[] = {{{", ".join(listed)}}};\n'
            calls.append(f'    {("one", "two")[count - 1]}("{name}", our_{name}, {name}l, {name}, of_{name}, {len(ranges.split())}, {MANY});\n')
            text += f'float our_{name}f({parameters.replace("double", "float")});\n'
            calls.append(f'    {("one_float", "two_floats")[count - 1]}("{name}", our_{name}f, {name}l, of_{name}, {len(ranges.split())}, {MANY});\n')
    calls += [f'    {function}({MANY});\n' for name, function in OTHERS.items() if name in names]
    return text + 'int main(void) {\n' + ''.join(calls) + '    printf("%ld answers compared, %ld failed\\n", compared, failures);\n    return failures || !compared;\n}\n'


def compile_all(names, work):
    """A program of the library's functions, under other names, and of the driver."""
    with open(f'{LIBRARY}/include/math.h', encoding='utf-8') as file:
        declared = sorted(set(re.findall(r'^\w[\w ]*?[ *](\w+)\(', file.read(), re.M)) - {'define'})
    with open(f'{work}/names.h', 'w') as file:
        file.writelines(f'#define {name} our_{name}\n' for name in [*declared, 'errno'])
    with open(f'{work}/driver.c', 'w') as file:
        file.write(driver(names))
    with open(f'{work}/errno.c', 'w') as file:
        file.write('int our_errno;\n')
    sources = [f'{LIBRARY}/{name}' for name in sorted(os.listdir(LIBRARY)) if name.endswith('.c') and re.match('math|wide|logarithms|powers|trig|arcs|hyper|gamma|error', name)]
    for source in sources:
        subprocess.run(['gcc', '-O2', '-ffp-contract=off', '-fno-builtin', '-w', '-nostdinc', '-isystem', f'{LIBRARY}/include', '-include', f'{work}/names.h',
                        '-c', source, '-o', f'{work}/{os.path.basename(source)}.o'], check=True)
    objects = [f'{work}/{os.path.basename(source)}.o' for source in sources]
    subprocess.run(['gcc', '-O2', '-fno-builtin', '-w', f'{work}/driver.c', f'{work}/errno.c', *objects, '-o', f'{work}/program', '-lm'], check=True)
    return f'{work}/program'


def main():
    if not shutil.which('gcc'):
        print('mathematics.py: gcc is missing; nothing is compared')
        return 77
    names = sys.argv[1:] or [*ONE, *TWO, *OTHERS]
    unknown = [name for name in names if name not in ONE and name not in TWO and name not in OTHERS]
    if unknown:
        print(f'mathematics.py: {unknown[0]}: not a function of the list')
        return 2
    with tempfile.TemporaryDirectory() as work:
        probe = subprocess.run(['gcc', '-dM', '-E', '-xc', '/dev/null'], capture_output=True, text=True, check=True).stdout
        if '__LDBL_MANT_DIG__ 64\n' not in probe:
            print('mathematics.py: the long double of this gcc has not 64 bits; nothing is compared')
            return 77
        return subprocess.run([compile_all(names, work)], check=False).returncode


if __name__ == '__main__':
    sys.exit(main())
