/* All digits of a large number, within a budget of cycles. */
#include <stdio.h>

static volatile double far = 1e300;

int main(void) {
    static char text[400];
    int length = sprintf(text, "%f", far);
    return length != 308 || text[0] != '1' || text[18] != '2' || text[308];
}
