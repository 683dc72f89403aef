/* A heap of pairs with a collector: what no name and no step in hand reaches is found by marking, without a stack, by turning pointers
   around on the way down and back on the way up; the rest is swept into a list of free pairs. The input is a script:
   pair A B C (A becomes the pair of B and C), head A B, tail A B, tree A DEPTH, ring A LENGTH, drop A, count A, collect. */
#include <stdio.h>
#include <stdlib.h>
#include <string.h>

#define PAIRS 800
#define NAMES 26
#define WORD 12

struct pair {
    struct pair *head, *tail;
    unsigned char is_marked, is_in_tail;
};

static struct pair heap[PAIRS], *free_pairs;
static struct pair *names[NAMES];
static struct pair *in_hand[64];
static int held, collections, allocated, swept;

/* Marks all that a pair reaches. On the way down, the pointer that was followed has the pair above. */
static void mark(struct pair *pair) {
    struct pair *above = NULL;
    for (;;) {
        if (pair && !pair->is_marked) {
            struct pair *next = pair->head;
            pair->is_marked = 1;
            pair->is_in_tail = 0;
            pair->head = above;
            above = pair;
            pair = next;
            continue;
        }
        while (above && above->is_in_tail) {
            struct pair *up = above->tail;
            above->tail = pair;
            pair = above;
            above = up;
        }
        if (!above)
            return;
        struct pair *up = above->head;
        above->head = pair;
        pair = above->tail;
        above->tail = up;
        above->is_in_tail = 1;
    }
}

static void sweep(void) {
    free_pairs = NULL;
    for (struct pair *pair = heap + PAIRS; pair-- > heap;) {
        if (!pair->is_marked) {
            swept += pair->head != pair;            /* a free pair is its own head */
            pair->head = pair;
            pair->tail = free_pairs;
            free_pairs = pair;
        }
        pair->is_marked = 0;
    }
}

static void collect(void) {
    collections++;
    for (int i = 0; i < NAMES; i++)
        mark(names[i]);
    for (int i = 0; i < held; i++)
        mark(in_hand[i]);
    sweep();
}

static struct pair *make(struct pair *head, struct pair *tail) {
    if (!free_pairs) {
        in_hand[held++] = head;
        in_hand[held++] = tail;
        collect();
        held -= 2;
        if (!free_pairs) {
            puts("no pair is left");
            exit(1);
        }
    }
    struct pair *pair = free_pairs;
    free_pairs = pair->tail;
    pair->head = head;
    pair->tail = tail;
    allocated++;
    return pair;
}

static struct pair *make_tree(int depth) {
    if (!depth)
        return NULL;
    struct pair *left = make_tree(depth - 1);
    in_hand[held++] = left;
    struct pair *right = make_tree(depth - 1);
    held--;
    return make(left, right);
}

static struct pair *make_ring(int length) {
    struct pair *last = make(NULL, NULL), *first = last;
    in_hand[held++] = last;
    while (--length > 0)
        in_hand[held - 1] = first = make(NULL, first);
    last->tail = first;
    held--;
    return first;
}

/* Those that a pair reaches, by marking and counting. */
static int count(struct pair *pair) {
    int number = 0;
    mark(pair);
    for (int i = 0; i < PAIRS; i++) {
        number += heap[i].is_marked;
        heap[i].is_marked = 0;
    }
    return number;
}

static struct pair **name(void) {
    char word[WORD];
    if (scanf("%11s", word) != 1 || word[0] < 'a' || word[0] > 'z') {
        puts("a name is a letter from a to z");
        exit(1);
    }
    return names + (word[0] - 'a');
}

static int number(void) {
    int read;
    return scanf("%d", &read) == 1 ? read : 0;
}

static void obey(const char *word) {
    if (!strcmp(word, "pair")) {
        struct pair **to = name(), **head = name(), **tail = name();
        *to = make(*head, *tail);
    } else if (!strcmp(word, "head") || !strcmp(word, "tail")) {
        struct pair **to = name(), **from = name();
        if (*from)
            *to = *word == 'h' ? (*from)->head : (*from)->tail;
    } else if (!strcmp(word, "tree")) {
        struct pair **to = name();
        *to = make_tree(number());
    } else if (!strcmp(word, "ring")) {
        struct pair **to = name();
        *to = make_ring(number());
    } else if (!strcmp(word, "drop")) {
        *name() = NULL;
    } else if (!strcmp(word, "count")) {
        struct pair **of = name();
        printf("%c reaches %d\n", (int) ('a' + (of - names)), count(*of));
    } else if (!strcmp(word, "collect")) {
        int before = swept;
        collect();
        printf("collected %d\n", swept - before);
    } else {
        printf("%s?\n", word);
    }
}

int main(void) {
    char word[WORD];
    for (int i = 0; i < PAIRS; i++)
        heap[i].head = heap + i;
    sweep();
    while (scanf("%11s", word) == 1)
        obey(word);
    printf("%d pairs made, %d collections, %d pairs swept\n", allocated, collections, swept);
    return 0;
}
