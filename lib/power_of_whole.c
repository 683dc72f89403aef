/* What gcc calls for a power with a whole exponent: squares of the number, of which those are multiplied whose bit of the exponent is
   set. */
static double power_of(double x, int exponent) {
    unsigned left = exponent < 0 ? -(unsigned) exponent : (unsigned) exponent;
    double power = left & 1 ? x : 1;
    while (left >>= 1) {
        x *= x;
        if (left & 1)
            power *= x;
    }
    return exponent < 0 ? 1 / power : power;
}

double __powidf2(double x, int exponent) {
    return power_of(x, exponent);
}

float __powisf2(float x, int exponent) {
    return power_of(x, exponent);
}
