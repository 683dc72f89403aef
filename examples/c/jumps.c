/* Jumps out of functions: faults that are caught, one within another, and a search that is left from its depth. */
#include <setjmp.h>
#include <stdio.h>

static jmp_buf *handler;            /* the innermost */

enum fault { NO_FAULT, TOO_DEEP, BAD_DIGIT };

static void raise_fault(enum fault fault) {
    longjmp(*handler, fault);
}

static int parse_digit(char c) {
    if (c < '0' || c > '9')
        raise_fault(BAD_DIGIT);
    return c - '0';
}

static int nested_sum(const char **text, int depth) {
    int sum = 0;
    if (depth > 4)
        raise_fault(TOO_DEEP);
    for (; **text && **text != ')'; ++*text) {
        if (**text == '(') {
            ++*text;
            sum += nested_sum(text, depth + 1);
        } else {
            sum += parse_digit(**text);
        }
    }
    return sum;
}

static void try_text(const char *text) {
    jmp_buf buffer, *outer = handler;
    const char *volatile at = text;
    handler = &buffer;
    switch (setjmp(buffer)) {
    case NO_FAULT: {
        const char *rest = text;
        int sum = nested_sum(&rest, 0);
        printf("%s is %d\n", at, sum);
        break;
    }
    case TOO_DEEP:
        printf("%s is too deep\n", at);
        break;
    case BAD_DIGIT:
        printf("%s has a bad digit\n", at);
    }
    handler = outer;
}

/* The first way to pay an amount by so many coins, found in the depth and told from the top. */
static jmp_buf found;
static int coins[12];

static void pay(int amount, int count) {
    static const int kinds[] = {50, 20, 10, 5, 2, 1};
    if (amount == 0)
        longjmp(found, count);
    for (unsigned i = 0; i < 6 && count < 12; i++)
        if (kinds[i] <= amount && (count == 0 || kinds[i] <= coins[count - 1])) {
            coins[count] = kinds[i];
            pay(amount - kinds[i], count + 1);
        }
}

int main(void) {
    static const char *const texts[] = {"123", "1(2(3)4)5", "1(2(3(4(5(6(7))))))", "12x4", ""};
    for (int i = 0; i < 5; i++)
        try_text(texts[i]);
    int count = setjmp(found);
    if (count == 0)
        pay(98, 0);
    for (int i = 0; i < count; i++)
        printf("%d ", coins[i]);
    printf("\n%d\n", setjmp(found) ? 1 : 0);
    return 0;
}
