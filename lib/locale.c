/* The locale C. */
#include <locale.h>
#include <string.h>

char *setlocale(int category, const char *name) {
    (void) category;
    return !name || !*name || !strcmp(name, "C") || !strcmp(name, "POSIX") ? "C" : NULL;
}

struct lconv *localeconv(void) {
    static struct lconv only = {".", "", "", "", ""};
    return &only;
}
