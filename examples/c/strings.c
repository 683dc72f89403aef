/* The string functions of the library, each on cases whose answers are printed. */
#include <ctype.h>
#include <stdio.h>
#include <stdlib.h>
#include <string.h>

static int sign(int number) {
    return (number > 0) - (number < 0);
}

static void search(void) {
    const char *text = "the quick brown fox jumps over the lazy dog";
    printf("%d %d %d ", (int) strlen(text), (int) (strchr(text, 'q') - text), (int) (strrchr(text, 'o') - text));
    printf("%d %d ", (int) (strstr(text, "the l") - text), strstr(text, "cat") == NULL);
    printf("%d %d %s\n", (int) strspn(text, "eht "), (int) strcspn(text, "xyz"), strpbrk(text, "wxyz"));
}

static void compare(void) {
    static const char *const words[] = {"", "a", "ab", "abc", "abd", "b", "\xff"};
    for (int i = 0; i < 7; i++)
        for (int j = 0; j < 7; j++)
            printf("%c%c", "<=>"[sign(strcmp(words[i], words[j])) + 1], "<=>"[sign(strncmp(words[i], words[j], 2)) + 1]);
    printf(" %d\n", sign(memcmp("same words here!", "same words here?", 16)));
}

static void copy(void) {
    char buffer[40] = "0123456789abcdefghijklmnopqrstuvwxyz";
    memmove(buffer + 3, buffer, 10);
    puts(buffer);
    memmove(buffer, buffer + 5, 20);
    puts(buffer);
    memset(buffer + 1, '-', 6);
    strncpy(buffer + 20, "end", 8);
    puts(buffer);
    printf("%s %d\n", strncat(strcat(strcpy(buffer, "one "), "two "), "three", 3), buffer[20 + 7]);
}

static void split(void) {
    char text[] = ",,alpha,beta;;gamma,";
    for (char *word = strtok(text, ",;"); word; word = strtok(NULL, ",;"))
        printf("[%s]", word);
    putchar('\n');
}

static void classify(void) {
    int counts[11] = {0}, letters = 0;
    for (int c = 0; c < 128; c++) {
        int (*const classes[])(int) = {isalnum, isalpha, isblank, iscntrl, isdigit, isgraph, islower, isprint, ispunct, isspace, isxdigit};
        for (int i = 0; i < 11; i++)
            counts[i] += classes[i](c) != 0;
        letters += toupper(c) != c;
        letters += tolower(c) != c;
    }
    for (int i = 0; i < 11; i++)
        printf("%d ", counts[i]);
    printf("%d\n", letters);
}

static void convert(void) {
    char *end;
    printf("%ld %ld %ld ", strtol(" -123x", &end, 10), strtol("0x7fff", NULL, 0), strtol("zz", NULL, 36));
    printf("%s %ld %lu %d %g\n", end, strtol("99999999999", NULL, 10), strtoul("777", NULL, 8), atoi("42abc"), atof("-1.5e3"));
}

int main(void) {
    search();
    compare();
    copy();
    split();
    classify();
    convert();
    char *copied = strdup("a copy");
    printf("%s %s\n", copied, (char *) memchr(copied, 'c', 6));
    free(copied);
    return 0;
}
