/* Functions with names of the library: the program's own are called, and the library goes on to call its own. */
#include <stdarg.h>
int printf(const char *, ...);
char *strdup(const char *);
double sqrt(double);

int strlen(const char *text) { return 1000 + (text[0] == 'x'); }
int abs(int value) { return value * 2; }
int round(int value) { return value + 1; }
int div(int a, int b) { return a - b; }
int rand(void) { return 4; }
int puts(const char *text) { return printf("own: %s\n", text); }
void *memcpy(void *to, const void *from, unsigned size) { (void) from; (void) size; return to; }

int main(void) {
    printf("%d %d %d %d %d\n", strlen("x"), abs(-3), round(5), div(7, 3), rand());
    puts("text");
    printf("%s %.2f %s\n", "words", sqrt(2.0), strdup("copied"));
    return 0;
}
