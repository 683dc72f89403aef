/* Counts the words of the input in a table of chains, and prints them by number and then by name. */
#include <ctype.h>
#include <stdio.h>
#include <stdlib.h>
#include <string.h>

#define CHAINS 31
#define LONGEST 20

struct word {
    struct word *next;
    int count;
    char text[];
};

static struct word *chains[CHAINS];
static int different;

static void count_word(const char *text) {
    unsigned hash = 5381;
    for (const char *at = text; *at; at++)
        hash = hash * 33 + *at;
    struct word **chain = &chains[hash % CHAINS];
    for (struct word *word = *chain; word; word = word->next)
        if (!strcmp(word->text, text)) {
            word->count++;
            return;
        }
    struct word *word = malloc(sizeof *word + strlen(text) + 1);
    strcpy(word->text, text);
    word->count = 1;
    word->next = *chain;
    *chain = word;
    different++;
}

static int read_word(char *to) {
    int c, length = 0;
    while ((c = getchar()) != EOF && !isalpha(c))
        ;
    for (; c != EOF && isalpha(c); c = getchar())
        if (length < LONGEST - 1)
            to[length++] = tolower(c);
    to[length] = 0;
    return length > 0;
}

static int by_count(const void *left, const void *right) {
    const struct word *a = *(struct word *const *) left, *b = *(struct word *const *) right;
    return a->count != b->count ? b->count - a->count : strcmp(a->text, b->text);
}

int main(void) {
    char text[LONGEST];
    while (read_word(text))
        count_word(text);
    struct word **sorted = malloc(different * sizeof *sorted);
    int count = 0;
    for (int i = 0; i < CHAINS; i++)
        for (struct word *word = chains[i]; word; word = word->next)
            sorted[count++] = word;
    qsort(sorted, count, sizeof *sorted, by_count);
    for (int i = 0; i < count; i++)
        printf("%s %d%c", sorted[i]->text, sorted[i]->count, i == count - 1 || i % 8 == 7 ? '\n' : ' ');
    return 0;
}
