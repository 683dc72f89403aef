/* Options with names, classes of wide characters, and sorting with an argument. */
#define _GNU_SOURCE
#include <getopt.h>
#include <stdio.h>
#include <stdlib.h>
#include <string.h>
#include <wchar.h>
#include <wctype.h>

static int loud;
static const struct option named[] = {
    {"verbose", no_argument, &loud, 7}, {"version", no_argument, NULL, 'V'}, {"output", required_argument, NULL, 'o'},
    {"level", optional_argument, NULL, 'l'}, {"value", required_argument, NULL, 'b'}, {NULL, 0, NULL, 0},
};

static void options(int count, char **arguments) {
    int option, index = -1;
    while ((option = getopt_long(count, arguments, ":ab:c::o:", named, &index)) != -1) {
        printf("%d %c %s %d %d\n", option, option ? option : '0', optarg ? optarg : "-", index, loud);
        if (option == '?' || option == ':')
            printf("wrong %d\n", optopt);
        optarg = NULL;
    }
    printf("%d:", optind);
    for (int i = 1; i < count; i++)
        printf(" %s", arguments[i]);
    puts("");
}

static void classes(void) {
    static const char *const names[] = {"alnum", "alpha", "blank", "cntrl", "digit", "graph", "lower", "print", "punct", "space", "upper", "xdigit"};
    for (unsigned i = 0; i < sizeof names / sizeof *names; i++) {
        unsigned sum = 0;
        for (wint_t c = 0; c < 300; c++)
            if (iswctype(c, wctype(names[i])))
                sum = sum * 31 + c;
        printf("%s %u %d\n", names[i], sum, iswctype(WEOF, wctype(names[i])) != 0);
    }
    printf("%d %d %d\n", wctype("none") == 0, (int) towctrans(L'a', wctrans("toupper")), (int) towlower(L'Q'));
    printf("%d %d %d %d\n", !!iswalpha(L'x'), !!iswdigit(L'x'), !!iswspace(L'\t'), (int) towupper(0xe4) == 0xe4);
}

static int by_distance(const void *left, const void *right, void *from) {
    int one = abs(*(const int *) left - *(int *) from), other = abs(*(const int *) right - *(int *) from);
    return one - other;
}

static void sorts(void) {
    for (int from = 0; from <= 40; from += 20) {
        int numbers[] = {33, 5, 21, 17, 40, 2, 29, 11};
        qsort_r(numbers, sizeof numbers / sizeof *numbers, sizeof *numbers, by_distance, &from);
        for (unsigned i = 0; i < sizeof numbers / sizeof *numbers; i++)
            printf("%d ", numbers[i]);
        puts("");
    }
}

int main(int count, char **arguments) {
    options(count, arguments);
    classes();
    sorts();
    return 0;
}
