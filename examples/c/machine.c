/* A machine of bytes: the input is a program in its assembly language, a line an instruction. It is turned into bytes, with labels as
   places, and interpreted: a stack, sixteen variables, an array, calls. */
#include <ctype.h>
#include <stdio.h>
#include <stdlib.h>
#include <string.h>

enum operation {
    HALT, PUSH, GET, SET, ADD, SUBTRACT, MULTIPLY, DIVIDE, REST, EQUAL, LESS, NOT, GO, ZERO, CALL, RETURN, LOAD, STORE, COPY, DROP, SWAP, PRINT,
    OPERATIONS
};
enum operand { NONE, VARIABLE, VALUE, PLACE };

static const struct {
    const char *name;
    enum operand operand;
} operations[OPERATIONS] = {
    [HALT] = {"halt", NONE},      [PUSH] = {"push", VALUE},     [GET] = {"get", VARIABLE}, [SET] = {"set", VARIABLE}, [ADD] = {"add", NONE},
    [SUBTRACT] = {"subtract", NONE}, [MULTIPLY] = {"multiply", NONE}, [DIVIDE] = {"divide", NONE}, [REST] = {"rest", NONE},
    [EQUAL] = {"equal", NONE},    [LESS] = {"less", NONE},      [NOT] = {"not", NONE},     [GO] = {"go", PLACE},      [ZERO] = {"zero", PLACE},
    [CALL] = {"call", PLACE},     [RETURN] = {"return", NONE},  [LOAD] = {"load", NONE},   [STORE] = {"store", NONE}, [COPY] = {"copy", NONE},
    [DROP] = {"drop", NONE},      [SWAP] = {"swap", NONE},      [PRINT] = {"print", NONE},
};

#define CODE 2048
#define DEPTH 64
#define ARRAY 256
#define LABELS 64
#define WORD 16

static unsigned char code[CODE];
static int size;
static struct label {
    char name[WORD];
    int place;
} labels[LABELS];
static struct label uses[CODE / 2];
static int label_count, use_count;
static long counts[OPERATIONS];

static void stop(const char *why, const char *what) {
    printf("%s: %s\n", why, what);
    exit(1);
}

static void put(int number, int bytes) {
    if (size + bytes > CODE)
        stop("the program is too long", "");
    while (bytes--)
        code[size++] = number >> 8 * bytes;
}

static void assemble_word(const char *word) {
    int operation = 0;
    while (operation < OPERATIONS && strcmp(operations[operation].name, word))
        operation++;
    if (operation == OPERATIONS)
        stop("unknown", word);
    put(operation, 1);
    if (operations[operation].operand == NONE)
        return;
    char operand[WORD];
    if (scanf("%15s", operand) != 1)
        stop("an operand is missing", word);
    switch (operations[operation].operand) {
    case VARIABLE:
        put((operand[0] - 'a') & 15, 1);
        break;
    case VALUE:
        put(atoi(operand), 2);
        break;
    default:
        strcpy(uses[use_count].name, operand);
        uses[use_count++].place = size;
        put(0, 2);
    }
}

static void assemble(void) {
    char word[WORD];
    while (scanf("%15s", word) == 1) {
        size_t length = strlen(word);
        if (word[length - 1] != ':') {
            assemble_word(word);
            continue;
        }
        if (label_count == LABELS)
            stop("too many labels", word);
        word[length - 1] = 0;
        strcpy(labels[label_count].name, word);
        labels[label_count++].place = size;
    }
    for (int i = 0; i < use_count; i++) {
        int label = 0;
        while (label < label_count && strcmp(labels[label].name, uses[i].name))
            label++;
        if (label == label_count)
            stop("no such label", uses[i].name);
        size = uses[i].place;
        put(labels[label].place, 2);
    }
}

static int place_at(const unsigned char *next) {
    return next[0] << 8 | next[1];
}

static void run(void) {
    static int variables[16], array[ARRAY];
    int stack[DEPTH], calls[DEPTH], *top = stack, *back = calls;
    const unsigned char *next = code;
    for (;;) {
        enum operation operation = *next++;
        counts[operation]++;
        if (top > stack + DEPTH - 2 || back > calls + DEPTH - 2)
            stop("a stack is full", operations[operation].name);
        switch (operation) {
        case HALT:
            return;
        case PUSH:
            *top++ = (short) place_at(next);
            next += 2;
            break;
        case GET:
            *top++ = variables[*next++];
            break;
        case SET:
            variables[*next++] = *--top;
            break;
        case ADD:
            top--;
            top[-1] += *top;
            break;
        case SUBTRACT:
            top--;
            top[-1] -= *top;
            break;
        case MULTIPLY:
            top--;
            top[-1] = (int) ((unsigned) top[-1] * *top);
            break;
        case DIVIDE:
            top--;
            top[-1] /= *top;
            break;
        case REST:
            top--;
            top[-1] %= *top;
            break;
        case EQUAL:
            top--;
            top[-1] = top[-1] == *top;
            break;
        case LESS:
            top--;
            top[-1] = top[-1] < *top;
            break;
        case NOT:
            top[-1] = !top[-1];
            break;
        case GO:
            next = code + place_at(next);
            break;
        case ZERO:
            next = *--top ? next + 2 : code + place_at(next);
            break;
        case CALL:
            *back++ = next + 2 - code;
            next = code + place_at(next);
            break;
        case RETURN:
            next = code + *--back;
            break;
        case LOAD:
            top[-1] = array[top[-1] & (ARRAY - 1)];
            break;
        case STORE:                 /* the value, then its place */
            top -= 2;
            array[top[1] & (ARRAY - 1)] = *top;
            break;
        case COPY:
            *top = top[-1];
            top++;
            break;
        case DROP:
            top--;
            break;
        case SWAP: {
            int kept = top[-1];
            top[-1] = top[-2];
            top[-2] = kept;
            break;
        }
        default:
            printf("%d\n", *--top);
        }
    }
}

int main(void) {
    long all = 0;
    assemble();
    run();
    for (int operation = 0; operation < OPERATIONS; operation++)
        all += counts[operation];
    printf("%d labels, %ld operations:", label_count, all);
    for (int operation = 0; operation < OPERATIONS; operation++)
        if (counts[operation])
            printf(" %s %ld", operations[operation].name, counts[operation]);
    putchar('\n');
    return 0;
}
