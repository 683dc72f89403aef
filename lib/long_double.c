/* What gcc calls for its built-in functions of long double, which is double, where a program does not read math.h. */
#define ONE(name)             \
    double name(double x);    \
    double name##l(double x); \
    double name##l(double x) { return name(x); }

#define TWO(name)                       \
    double name(double x, double y);    \
    double name##l(double x, double y); \
    double name##l(double x, double y) { return name(x, y); }

ONE(fabs)
ONE(floor)
ONE(ceil)
ONE(trunc)
ONE(round)
ONE(rint)
ONE(nearbyint)
ONE(logb)
ONE(sqrt)
ONE(exp)
ONE(log)
ONE(sin)
ONE(cos)
ONE(tan)
ONE(atan)
TWO(fmax)
TWO(fmin)
TWO(fmod)
TWO(copysign)
TWO(pow)
TWO(atan2)
TWO(hypot)

int ilogb(double x);
int ilogbl(double x);
int ilogbl(double x) { return ilogb(x); }
