/* A small Forth: numbers, arithmetic, words for the stack, definitions with if else then, begin until, and recursion.
   Definitions are compiled to numbers in a dictionary of threads. */
#include <ctype.h>
#include <stdio.h>
#include <stdlib.h>
#include <string.h>

#define CELLS 600
#define STACK 64
#define WORDS 60
#define NAME 16

static int stack[STACK], depth, code[CELLS], here;

static struct {
    char name[NAME];
    void (*does)(void);     /* or none, and then: */
    int start;
} words[WORDS];
static int word_count, next_cell, is_compiling;

static void push(int number) {
    if (depth == STACK) {
        puts("stack full");
        exit(1);
    }
    stack[depth++] = number;
}

static int pop(void) {
    if (depth == 0) {
        puts("stack empty");
        exit(1);
    }
    return stack[--depth];
}

static void add(void) {
    int b = pop();
    push(pop() + b);
}

static void subtract(void) {
    int b = pop();
    push(pop() - b);
}

static void multiply(void) {
    int b = pop();
    push(pop() * b);
}

static void divide(void) {
    int b = pop();
    push(b ? pop() / b : 0);
}

static void modulo(void) {
    int b = pop();
    push(b ? pop() % b : 0);
}

static void less(void) {
    int b = pop();
    push(-(pop() < b));
}

static void equal(void) {
    push(-(pop() == pop()));
}

static void duplicate(void) {
    int a = pop();
    push(a);
    push(a);
}

static void drop(void) {
    pop();
}

static void swap(void) {
    int b = pop(), a = pop();
    push(b);
    push(a);
}

static void over(void) {
    int b = pop(), a = pop();
    push(a);
    push(b);
    push(a);
}

static void rotate(void) {
    int c = pop(), b = pop(), a = pop();
    push(b);
    push(c);
    push(a);
}

static void print(void) {
    printf("%d ", pop());
}

static void emit(void) {
    putchar(pop());
}

static void new_line(void) {
    putchar('\n');
}

/* Words that are only compiled: they use the cell behind them. */
static void literal(void) {
    push(code[next_cell++]);
}

static void branch(void) {
    next_cell = code[next_cell];
}

static void branch_if_zero(void) {
    int target = code[next_cell++];
    if (!pop())
        next_cell = target;
}

static void leave(void) {
    next_cell = -1;
}

static void define(const char *name, void (*does)(void), int start) {
    strncpy(words[word_count].name, name, NAME - 1);
    words[word_count].does = does;
    words[word_count++].start = start;
}

enum { LITERAL, BRANCH, BRANCH_IF_ZERO, LEAVE };

static void define_all(void) {
    static const struct {
        const char *name;
        void (*does)(void);
    } built_in[] = {
        {" literal", literal}, {" branch", branch}, {" 0branch", branch_if_zero}, {" leave", leave}, {"+", add}, {"-", subtract},
        {"*", multiply}, {"/", divide}, {"mod", modulo}, {"<", less}, {"=", equal}, {"dup", duplicate}, {"drop", drop}, {"swap", swap},
        {"over", over}, {"rot", rotate}, {".", print}, {"emit", emit}, {"cr", new_line},
    };
    for (unsigned i = 0; i < sizeof built_in / sizeof *built_in; i++)
        define(built_in[i].name, built_in[i].does, 0);
}

static int find(const char *name) {
    int word = word_count - 1;
    while (word >= 0 && strcmp(words[word].name, name))
        word--;
    return word;
}

static void execute(int word) {
    if (words[word].does) {
        words[word].does();
        return;
    }
    int outer = next_cell;
    for (next_cell = words[word].start; next_cell >= 0;)
        execute(code[next_cell++]);
    next_cell = outer;
}

static int read_name(char *to) {
    int c, length = 0;
    while (isspace(c = getchar()))
        ;
    for (; c != EOF && !isspace(c); c = getchar())
        if (length < NAME - 1)
            to[length++] = c;
    to[length] = 0;
    return length;
}

/* The words that are executed while a definition is compiled; answers whether this was one. */
static int compile_structure(const char *name) {
    if (!strcmp(name, ";")) {
        code[here++] = LEAVE;
        is_compiling = 0;
    } else if (!strcmp(name, "if")) {
        code[here++] = BRANCH_IF_ZERO;
        push(here++);
    } else if (!strcmp(name, "else")) {
        code[here++] = BRANCH;
        code[pop()] = here + 1;
        push(here++);
    } else if (!strcmp(name, "then")) {
        code[pop()] = here;
    } else if (!strcmp(name, "begin")) {
        push(here);
    } else if (!strcmp(name, "until")) {
        code[here++] = BRANCH_IF_ZERO;
        code[here++] = pop();
    } else {
        return 0;
    }
    return 1;
}

static void take(const char *name) {
    int word = find(name);
    if (is_compiling && compile_structure(name))
        return;
    if (word >= 0 && is_compiling) {
        code[here++] = word;
    } else if (word >= 0) {
        execute(word);
    } else if (is_compiling) {
        code[here++] = LITERAL;
        code[here++] = atoi(name);
    } else {
        push(atoi(name));
    }
}

int main(void) {
    char name[NAME];
    define_all();
    while (read_name(name)) {
        if (!strcmp(name, ":")) {
            read_name(name);
            define(name, NULL, here);
            is_compiling = 1;
        } else {
            take(name);
        }
    }
    printf("%d left\n", depth);
    return depth;
}
