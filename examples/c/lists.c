/* Linked lists: the input's lines, a name and a number each, are kept in a list that is sorted in two ways by merging, reversed,
   searched, and cleared of repeated names. */
#include <stdio.h>
#include <stdlib.h>
#include <string.h>

#define ROUNDS 20

struct item {
    struct item *next;
    char name[16];
    int number;
};

typedef int order(const struct item *, const struct item *);

static int by_name(const struct item *left, const struct item *right) {
    return strcmp(left->name, right->name);
}

static int by_number(const struct item *left, const struct item *right) {
    return (left->number > right->number) - (left->number < right->number);
}

static struct item *read_list(void) {
    struct item *first = NULL, **end = &first, read;
    while (scanf("%15s %d", read.name, &read.number) == 2) {
        *end = malloc(sizeof **end);
        **end = read;
        end = &(*end)->next;
    }
    *end = NULL;
    return first;
}

static struct item *merge(struct item *left, struct item *right, order *compare) {
    struct item *first, **end = &first;
    while (left && right) {
        struct item **smaller = compare(right, left) < 0 ? &right : &left;
        *end = *smaller;
        *smaller = (*smaller)->next;
        end = &(*end)->next;
    }
    *end = left ? left : right;
    return first;
}

/* Merges runs of 1, 2, 4 .. items, until one run is left. */
static struct item *sort(struct item *list, order *compare) {
    struct item *runs[32] = {NULL};
    while (list) {
        struct item *run = list;
        int level = 0;
        list = list->next;
        run->next = NULL;
        for (; runs[level]; level++) {
            run = merge(runs[level], run, compare);
            runs[level] = NULL;
        }
        runs[level] = run;
    }
    for (int level = 0; level < 32; level++)
        list = merge(runs[level], list, compare);
    return list;
}

static struct item *reverse(struct item *list) {
    struct item *turned = NULL;
    while (list) {
        struct item *next = list->next;
        list->next = turned;
        turned = list;
        list = next;
    }
    return turned;
}

static const struct item *find(const struct item *list, const char *name) {
    while (list && strcmp(list->name, name))
        list = list->next;
    return list;
}

/* Of a list that is sorted by name: adds up what has one name. */
static int unite(struct item *list) {
    int removed = 0;
    while (list && list->next) {
        struct item *next = list->next;
        if (strcmp(list->name, next->name)) {
            list = next;
            continue;
        }
        list->number += next->number;
        list->next = next->next;
        free(next);
        removed++;
    }
    return removed;
}

static unsigned mix(const struct item *list) {
    unsigned sum = 0;
    for (; list; list = list->next)
        sum = sum * 31 + list->number;
    return sum;
}

static void print(const char *title, const struct item *list) {
    printf("%s:", title);
    for (; list; list = list->next)
        printf(" %s %d", list->name, list->number);
    putchar('\n');
}

int main(void) {
    struct item *list = read_list();
    unsigned sum = 0;
    for (int round = 0; round < ROUNDS; round++) {
        list = sort(list, by_number);
        sum += mix(list);
        list = reverse(sort(list, by_name));
        sum += mix(list);
    }
    printf("%d rounds: %u\n", ROUNDS, sum);
    print("by number", list = sort(list, by_number));
    list = sort(list, by_name);
    printf("%d names are repeated\n", unite(list));
    print("by name", list);
    print("backwards", list = reverse(list));
    for (const char *const *name = (const char *const[]){"plum", "fig", "melon", NULL}; *name; name++) {
        const struct item *found = find(list, *name);
        printf("%s: %d\n", *name, found ? found->number : -1);
    }
    return 0;
}
