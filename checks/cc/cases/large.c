/* Texts of large and small numbers, and back, within a budget of cycles. */
#include <stdio.h>
#include <stdlib.h>

int main(void) {
    static const double numbers[] = {1e300, 1.7976931348623157e308, 5e-324, 6.02214076e23, -1e-300, 123456789012345678.0};
    char text[64];
    for (unsigned i = 0; i < sizeof numbers / sizeof *numbers; i++) {
        sprintf(text, "%g", numbers[i]);
        printf("%s %.17g %.3e\n", text, numbers[i], numbers[i]);
    }
    return 0;
}
