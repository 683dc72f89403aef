/* A small Lisp: reads expressions from the input and prints their values. Numbers, symbols, lists; quote, if, lambda,
   define; arithmetic and comparisons; closures with static scope. */
#include <ctype.h>
#include <stdio.h>
#include <stdlib.h>
#include <string.h>

enum kind { NUMBER, SYMBOL, PAIR, BUILT_IN, CLOSURE };

struct cell {
    enum kind kind;
    union {
        int number;
        const char *name;
        struct {
            struct cell *first, *rest;
        } pair;
        struct cell *(*function)(struct cell *arguments);
        struct {
            struct cell *lambda, *scope;
        } closure;
    } is;
};

static struct cell *symbols, *globals, *quote_symbol, *if_symbol, *lambda_symbol, *define_symbol, *true_symbol;

static struct cell *new_cell(enum kind kind) {
    struct cell *cell = malloc(sizeof *cell);
    if (!cell) {
        puts("out of memory");
        exit(1);
    }
    cell->kind = kind;
    return cell;
}

static struct cell *number(int value) {
    struct cell *cell = new_cell(NUMBER);
    cell->is.number = value;
    return cell;
}

static struct cell *pair(struct cell *first, struct cell *rest) {
    struct cell *cell = new_cell(PAIR);
    cell->is.pair.first = first;
    cell->is.pair.rest = rest;
    return cell;
}

static struct cell *first(struct cell *list) {
    return list ? list->is.pair.first : NULL;
}

static struct cell *rest(struct cell *list) {
    return list ? list->is.pair.rest : NULL;
}

static struct cell *second(struct cell *list) {
    return first(rest(list));
}

/* The one symbol of this name. */
static struct cell *symbol(const char *name) {
    for (struct cell *known = symbols; known; known = rest(known))
        if (!strcmp(first(known)->is.name, name))
            return first(known);
    struct cell *cell = new_cell(SYMBOL);
    char *copy = malloc(strlen(name) + 1);
    cell->is.name = strcpy(copy, name);
    symbols = pair(cell, symbols);
    return cell;
}

static int next_character(void) {
    int c = getchar();
    while (isspace(c))
        c = getchar();
    return c;
}

static struct cell *read_expression(int c);

static struct cell *read_list(void) {
    int c = next_character();
    if (c == ')' || c == EOF)
        return NULL;
    struct cell *head = read_expression(c);
    return pair(head, read_list());
}

static struct cell *read_atom(int c) {
    char text[32];
    int length = 0;
    for (; c != EOF && !isspace(c) && c != '(' && c != ')' && length < 31; c = getchar())
        text[length++] = c;
    text[length] = 0;
    ungetc(c, stdin);
    char *end;
    long value = strtol(text, &end, 10);
    return *end ? symbol(text) : number(value);
}

static struct cell *read_expression(int c) {
    if (c == '(')
        return read_list();
    if (c == '\'')
        return pair(quote_symbol, pair(read_expression(next_character()), NULL));
    return read_atom(c);
}

static void print(struct cell *cell) {
    if (!cell) {
        printf("()");
    } else if (cell->kind == NUMBER) {
        printf("%d", cell->is.number);
    } else if (cell->kind == SYMBOL) {
        printf("%s", cell->is.name);
    } else if (cell->kind == PAIR) {
        const char *before = "(";
        for (; cell; cell = rest(cell), before = " ") {
            printf("%s", before);
            print(first(cell));
        }
        putchar(')');
    } else {
        printf("<function>");
    }
}

/* The pair of a name and its value, in a scope or among the globals. */
static struct cell *binding(struct cell *name, struct cell *scope) {
    for (struct cell *at = scope; at; at = rest(at))
        if (first(first(at)) == name)
            return first(at);
    for (struct cell *at = globals; at; at = rest(at))
        if (first(first(at)) == name)
            return first(at);
    printf("no value: %s\n", name->is.name);
    exit(1);
}

static struct cell *evaluate(struct cell *expression, struct cell *scope);

static struct cell *evaluate_all(struct cell *list, struct cell *scope) {
    if (!list)
        return NULL;
    struct cell *value = evaluate(first(list), scope);
    return pair(value, evaluate_all(rest(list), scope));
}

static struct cell *apply(struct cell *function, struct cell *arguments) {
    if (function->kind == BUILT_IN)
        return function->is.function(arguments);
    struct cell *lambda = function->is.closure.lambda, *scope = function->is.closure.scope;
    for (struct cell *name = second(lambda); name; name = rest(name), arguments = rest(arguments))
        scope = pair(pair(first(name), first(arguments)), scope);
    return evaluate(first(rest(rest(lambda))), scope);
}

static struct cell *make_closure(struct cell *lambda, struct cell *scope) {
    struct cell *cell = new_cell(CLOSURE);
    cell->is.closure.lambda = lambda;
    cell->is.closure.scope = scope;
    return cell;
}

static struct cell *evaluate(struct cell *expression, struct cell *scope) {
    if (!expression || expression->kind == NUMBER)
        return expression;
    if (expression->kind == SYMBOL)
        return rest(binding(expression, scope));
    struct cell *head = first(expression);
    if (head == quote_symbol)
        return second(expression);
    if (head == if_symbol) {
        struct cell *branches = rest(rest(expression));
        return evaluate(evaluate(second(expression), scope) ? first(branches) : second(branches), scope);
    }
    if (head == lambda_symbol)
        return make_closure(expression, scope);
    if (head == define_symbol) {
        struct cell *bound = pair(second(expression), NULL);
        globals = pair(bound, globals);
        bound->is.pair.rest = evaluate(first(rest(rest(expression))), scope);
        return second(expression);
    }
    struct cell *function = evaluate(head, scope);
    return apply(function, evaluate_all(rest(expression), scope));
}

static struct cell *add(struct cell *list) {
    int sum = 0;
    for (; list; list = rest(list))
        sum += first(list)->is.number;
    return number(sum);
}

static struct cell *multiply(struct cell *list) {
    int product = 1;
    for (; list; list = rest(list))
        product *= first(list)->is.number;
    return number(product);
}

static struct cell *subtract(struct cell *list) {
    return number(first(list)->is.number - second(list)->is.number);
}

static struct cell *less(struct cell *list) {
    return first(list)->is.number < second(list)->is.number ? true_symbol : NULL;
}

static struct cell *equal(struct cell *list) {
    return first(list)->is.number == second(list)->is.number ? true_symbol : NULL;
}

static struct cell *cons(struct cell *list) {
    return pair(first(list), second(list));
}

static struct cell *car(struct cell *list) {
    return first(first(list));
}

static struct cell *cdr(struct cell *list) {
    return rest(first(list));
}

static void build_in(const char *name, struct cell *(*function)(struct cell *)) {
    struct cell *cell = new_cell(BUILT_IN);
    cell->is.function = function;
    globals = pair(pair(symbol(name), cell), globals);
}

int main(void) {
    quote_symbol = symbol("quote");
    if_symbol = symbol("if");
    lambda_symbol = symbol("lambda");
    define_symbol = symbol("define");
    true_symbol = symbol("true");
    globals = pair(pair(true_symbol, true_symbol), NULL);
    build_in("+", add);
    build_in("*", multiply);
    build_in("-", subtract);
    build_in("<", less);
    build_in("=", equal);
    build_in("cons", cons);
    build_in("car", car);
    build_in("cdr", cdr);
    for (int c; (c = next_character()) != EOF;) {
        print(evaluate(read_expression(c), NULL));
        putchar('\n');
    }
    return 0;
}
