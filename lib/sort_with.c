/* Sorting by a comparison that takes an argument more. */
#define _GNU_SOURCE
#include <stdlib.h>

typedef int comparison_with(const void *, const void *, void *);

/* The comparison of the call that sorts now. A comparison may itself sort, so each call keeps the one before. */
static struct {
    comparison_with *compare;
    void *argument;
} current;

static int compare_with(const void *left, const void *right) {
    return current.compare(left, right, current.argument);
}

void qsort_r(void *base, size_t count, size_t size, comparison_with *compare, void *argument) {
    typeof(current) before = current;
    current.compare = compare;
    current.argument = argument;
    qsort(base, count, size, compare_with);
    current = before;
}
