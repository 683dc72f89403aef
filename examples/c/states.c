/* A machine of states that reads the input's words one character at a time and tells what kind of number each is: whole, octal,
   hexadecimal, with a fraction, with an exponent, or none. Its table is made once from rules; then it counts its own steps. */
#include <stdio.h>
#include <string.h>

enum state { START, SIGN, ZERO, OCTAL, WHOLE, HEX_MARK, HEX, POINT, FRACTION, EXPONENT, EXPONENT_SIGN, POWER, WRONG, STATES };
enum { CHARACTERS = 128, ROUNDS = 40, ROOM = 4096 };

static const char *const kinds[STATES] = {
    [ZERO] = "zero", [OCTAL] = "octal", [WHOLE] = "whole", [HEX] = "hexadecimal", [FRACTION] = "fraction", [POWER] = "power",
};

static const struct {
    enum state from;
    const char *characters;
    enum state to;
} rules[] = {
    {START, "+-", SIGN}, {START, "0", ZERO}, {START, "123456789", WHOLE}, {START, ".", POINT},
    {SIGN, "0", ZERO}, {SIGN, "123456789", WHOLE}, {SIGN, ".", POINT},
    {ZERO, "01234567", OCTAL}, {ZERO, "xX", HEX_MARK}, {ZERO, ".", FRACTION}, {ZERO, "eE", EXPONENT},
    {OCTAL, "01234567", OCTAL},
    {WHOLE, "0123456789", WHOLE}, {WHOLE, ".", FRACTION}, {WHOLE, "eE", EXPONENT},
    {HEX_MARK, "0123456789abcdefABCDEF", HEX}, {HEX, "0123456789abcdefABCDEF", HEX},
    {POINT, "0123456789", FRACTION}, {FRACTION, "0123456789", FRACTION}, {FRACTION, "eE", EXPONENT},
    {EXPONENT, "+-", EXPONENT_SIGN}, {EXPONENT, "0123456789", POWER}, {EXPONENT_SIGN, "0123456789", POWER}, {POWER, "0123456789", POWER},
};

static unsigned char next[STATES][CHARACTERS];
static long visits[STATES];

static void make_table(void) {
    memset(next, WRONG, sizeof next);
    for (unsigned i = 0; i < sizeof rules / sizeof *rules; i++)
        for (const char *c = rules[i].characters; *c; c++)
            next[rules[i].from][(int) *c] = rules[i].to;
}

static int is_blank(int c) {
    return c == ' ' || c == '\n' || c == '\t';
}

/* The state behind the word at a place, which is moved to the word's end. */
static enum state read_word(const char **at) {
    enum state state = START;
    for (; **at && !is_blank(**at); ++*at) {
        state = next[state][**at & 127];
        visits[state]++;
    }
    return state;
}

int main(void) {
    static char text[ROOM];
    size_t length = fread(text, 1, ROOM - 1, stdin);
    int counts[STATES] = {0};
    text[length] = 0;
    make_table();
    for (int round = 0; round < ROUNDS; round++) {
        for (const char *at = text;;) {
            while (is_blank(*at))
                at++;
            if (!*at)
                break;
            const char *word = at;
            enum state state = read_word(&at);
            counts[state]++;
            if (round == 0)
                printf("%.*s: %s\n", (int) (at - word), word, kinds[state] ? kinds[state] : "no number");
        }
    }
    for (int state = 0; state < STATES; state++)
        printf("state %d: %ld steps, %d words\n", state, visits[state], counts[state]);
    return 0;
}
