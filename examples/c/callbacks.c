/* Functions as values: in tables, as arguments, from functions, compared and copied; a machine of states. */
#include <stdio.h>
#include <stdlib.h>
#include <string.h>

typedef int operation(int, int);

static int add(int a, int b) {
    return a + b;
}

static int subtract(int a, int b) {
    return a - b;
}

static int multiply(int a, int b) {
    return a * b;
}

static operation *const operations[] = {add, subtract, multiply};

static int fold(operation *combine, const int *numbers, int count) {
    int value = numbers[0];
    for (int i = 1; i < count; i++)
        value = combine(value, numbers[i]);
    return value;
}

static operation *operation_of(char sign) {
    return sign == '+' ? add : sign == '-' ? subtract : sign == '*' ? multiply : NULL;
}

/* Words are counted by states that tell the next one. */
struct state {
    struct state (*next)(int c, int *words);
};

static struct state between(int c, int *words);

static struct state within(int c, int *words) {
    (void) words;
    return (struct state){c == ' ' ? between : within};
}

static struct state between(int c, int *words) {
    if (c == ' ')
        return (struct state){between};
    ++*words;
    return (struct state){within};
}

static int count_words(const char *text) {
    struct state state = {between};
    int words = 0;
    for (; *text; text++)
        state = state.next(*text, &words);
    return words;
}

struct shape {
    const char *name;
    int (*area)(const struct shape *shape);
    int width, height;
};

static int area_of_rectangle(const struct shape *shape) {
    return shape->width * shape->height;
}

static int area_of_triangle(const struct shape *shape) {
    return shape->width * shape->height / 2;
}

static int by_area(const void *left, const void *right) {
    const struct shape *a = left, *b = right;
    return a->area(a) - b->area(b);
}

int main(void) {
    static const int numbers[] = {7, -3, 5, 2, -1};
    for (unsigned i = 0; i < 3; i++)
        printf("%d ", fold(operations[i], numbers, 5));
    operation *copies[3], *found = operation_of('*');
    memcpy(copies, operations, sizeof copies);
    printf("%d %d %d\n", found == copies[2], found == copies[1], operation_of('/') == NULL);
    printf("%d words\n", count_words("  how many   words are here "));
    struct shape shapes[] = {
        {"hall", area_of_rectangle, 9, 5}, {"roof", area_of_triangle, 9, 4}, {"door", area_of_rectangle, 1, 2}, {"sail", area_of_triangle, 6, 7},
    };
    qsort(shapes, 4, sizeof *shapes, by_area);
    for (int i = 0; i < 4; i++)
        printf("%s %d%s", shapes[i].name, shapes[i].area(&shapes[i]), i < 3 ? ", " : "\n");
    return 0;
}
