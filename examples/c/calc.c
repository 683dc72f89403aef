/* A calculator: reads lines of whole and of floating numbers with + - * / % ( ) and names, and prints their values. */
#include <ctype.h>
#include <math.h>
#include <stdio.h>
#include <stdlib.h>
#include <string.h>

#define LINE 100

static const char *at;              /* where the line is read */
static const char *fault;           /* or none */
static double values[26];

static void skip_blanks(void) {
    while (*at == ' ')
        at++;
}

static int takes(char c) {
    skip_blanks();
    if (*at != c)
        return 0;
    at++;
    return 1;
}

static double sum(void);

static double name_or_function(void) {
    char name[8];
    int length = 0;
    while (isalpha(*at) && length < 7)
        name[length++] = *at++;
    name[length] = 0;
    if (length == 1)
        return values[name[0] - 'a'];
    if (!takes('('))
        fault = "a ( is missing";
    double argument = sum();
    takes(')');
    if (!strcmp(name, "sqrt"))
        return sqrt(argument);
    if (!strcmp(name, "floor"))
        return floor(argument);
    fault = "no such function";
    return 0;
}

static double factor(void) {
    skip_blanks();
    if (takes('-'))
        return -factor();
    if (takes('(')) {
        double value = sum();
        if (!takes(')'))
            fault = "a ) is missing";
        return value;
    }
    if (islower(*at))
        return name_or_function();
    char *end;
    double value = strtod(at, &end);
    if (end == at)
        fault = "a number is missing";
    at = end;
    return value;
}

static double product(void) {
    double value = factor();
    for (;;) {
        if (takes('*')) {
            value *= factor();
        } else if (takes('/')) {
            double divisor = factor();
            if (divisor == 0)
                fault = "division by zero";
            else
                value /= divisor;
        } else if (takes('%')) {
            value = fmod(value, factor());
        } else {
            return value;
        }
    }
}

static double sum(void) {
    double value = product();
    for (;;) {
        if (takes('+'))
            value += product();
        else if (takes('-'))
            value -= product();
        else
            return value;
    }
}

int main(void) {
    char line[LINE];
    while (fgets(line, LINE, stdin)) {
        int target = islower(line[0]) && line[1] == '=' ? line[0] - 'a' : -1;
        line[strcspn(line, "\n")] = 0;
        at = target >= 0 ? line + 2 : line;
        fault = NULL;
        double value = sum();
        skip_blanks();
        if (!fault && *at)
            fault = "this is too much";
        if (fault) {
            printf("%s: %s at %d\n", line, fault, (int) (at - line));
            continue;
        }
        if (target >= 0)
            values[target] = value;
        printf("%s = %.10g\n", line, value);
    }
    return 0;
}
