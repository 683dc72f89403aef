/* Reads values in JSON, one after another, builds a tree of each, and prints it in one form, with what it holds: how deep it is, how
   many values and characters it has, and the sum of its numbers in thousandths. A fault is told with its line and column. */
#include <ctype.h>
#include <setjmp.h>
#include <stdio.h>
#include <stdlib.h>
#include <string.h>

#define ROOM 8192
#define DEEPEST 20

enum kind { NOTHING, FALSE, TRUE, NUMBER, STRING, ARRAY, OBJECT };

struct value {
    enum kind kind;
    char *name;                     /* in an object */
    char *text;                     /* of a number or a string */
    struct value *first, *next;
};

struct measure {
    int depth, values, characters;
    long long sum;
};

static char input[ROOM];
static const char *at;
static jmp_buf fault;
static const char *what;

static void fail(const char *why) {
    what = why;
    longjmp(fault, 1);
}

static void skip_blanks(void) {
    while (*at == ' ' || *at == '\n' || *at == '\t' || *at == '\r')
        at++;
}

static int take(char c) {
    skip_blanks();
    if (*at != c)
        return 0;
    at++;
    return 1;
}

static unsigned read_hex(void) {
    unsigned number = 0;
    for (int i = 0; i < 4; i++, at++) {
        if (!isxdigit((unsigned char) *at))
            fail("four hexadecimal digits are expected");
        number = number * 16 + (isdigit((unsigned char) *at) ? *at - '0' : (*at | 32) - 'a' + 10);
    }
    return number;
}

/* A character in one to three bytes. */
static char *put_character(char *to, unsigned c) {
    if (c < 0x80) {
        *to++ = c;
    } else if (c < 0x800) {
        *to++ = 0xc0 | c >> 6;
        *to++ = 0x80 | (c & 63);
    } else {
        *to++ = 0xe0 | c >> 12;
        *to++ = 0x80 | (c >> 6 & 63);
        *to++ = 0x80 | (c & 63);
    }
    return to;
}

static char *read_string(void) {
    static const char letters[] = "\"\\/bfnrt", meant[] = "\"\\/\b\f\n\r\t";
    char *text = malloc(strcspn(at, "\n") + 1), *to = text;
    while (*at != '"') {
        if ((unsigned char) *at < ' ')
            fail("a string does not end");
        if (*at != '\\') {
            *to++ = *at++;
            continue;
        }
        at++;
        const char *letter = *at ? strchr(letters, *at) : NULL;
        if (letter) {
            *to++ = meant[letter - letters];
            at++;
        } else if (*at == 'u') {
            at++;
            to = put_character(to, read_hex());
        } else {
            fail("no such character after a backslash");
        }
    }
    at++;
    *to = 0;
    return text;
}

static void skip_digits(void) {
    if (!isdigit((unsigned char) *at))
        fail("a digit is expected");
    while (isdigit((unsigned char) *at))
        at++;
}

static char *read_number(void) {
    const char *start = at;
    at += *at == '-';
    if (*at == '0')
        at++;
    else
        skip_digits();
    if (*at == '.') {
        at++;
        skip_digits();
    }
    if (*at == 'e' || *at == 'E') {
        at++;
        at += *at == '+' || *at == '-';
        skip_digits();
    }
    char *text = malloc(at - start + 1);
    memcpy(text, start, at - start);
    text[at - start] = 0;
    return text;
}

static int take_word(const char *word) {
    size_t length = strlen(word);
    if (strncmp(at, word, length) || isalnum((unsigned char) at[length]))
        return 0;
    at += length;
    return 1;
}

static struct value *read_value(int depth);

static void read_members(struct value *whole, char end, int depth) {
    struct value **last = &whole->first;
    if (take(end))
        return;
    do {
        char *name = NULL;
        if (end == '}') {
            if (!take('"'))
                fail("a name is expected");
            name = read_string();
            if (!take(':'))
                fail("a colon is expected");
        }
        *last = read_value(depth + 1);
        (*last)->name = name;
        last = &(*last)->next;
    } while (take(','));
    if (!take(end))
        fail(end == '}' ? "a comma or } is expected" : "a comma or ] is expected");
}

static struct value *read_value(int depth) {
    struct value *value = calloc(1, sizeof *value);
    if (depth > DEEPEST)
        fail("too deep");
    skip_blanks();
    if (take('{')) {
        value->kind = OBJECT;
        read_members(value, '}', depth);
    } else if (take('[')) {
        value->kind = ARRAY;
        read_members(value, ']', depth);
    } else if (take('"')) {
        value->kind = STRING;
        value->text = read_string();
    } else if (*at == '-' || isdigit((unsigned char) *at)) {
        value->kind = NUMBER;
        value->text = read_number();
    } else if (take_word("true")) {
        value->kind = TRUE;
    } else if (take_word("false")) {
        value->kind = FALSE;
    } else if (!take_word("null")) {
        fail("a value is expected");
    }
    return value;
}

static void print_string(const char *text) {
    putchar('"');
    for (; *text; text++) {
        if (*text == '"' || *text == '\\')
            printf("\\%c", *text);
        else if ((unsigned char) *text < ' ')
            printf("\\u%04x", *text);
        else
            putchar(*text);
    }
    putchar('"');
}

static void print(const struct value *value) {
    static const char *const words[] = {"null", "false", "true"};
    if (value->name) {
        print_string(value->name);
        putchar(':');
    }
    switch (value->kind) {
    case NUMBER:
        fputs(value->text, stdout);
        break;
    case STRING:
        print_string(value->text);
        break;
    case ARRAY:
    case OBJECT:
        putchar(value->kind == ARRAY ? '[' : '{');
        for (const struct value *member = value->first; member; member = member->next) {
            print(member);
            if (member->next)
                putchar(',');
        }
        putchar(value->kind == ARRAY ? ']' : '}');
        break;
    default:
        fputs(words[value->kind], stdout);
    }
}

/* A number in thousandths, cut off. */
static long long thousandths(const char *text) {
    long long number = 0;
    int is_negative = *text == '-', power = 3, has_point = 0;
    for (text += is_negative; isdigit((unsigned char) *text) || *text == '.'; text++) {
        if (*text == '.') {
            has_point = 1;
        } else if (number < 1000000000000ll) {
            number = number * 10 + *text - '0';
            power -= has_point;
        }
    }
    if (*text)
        power += atoi(text + 1);
    for (; power > 0 && number < 1000000000000ll; power--)
        number *= 10;
    for (; power < 0; power++)
        number /= 10;
    return is_negative ? -number : number;
}

static void take_measure(const struct value *value, int depth, struct measure *measure) {
    measure->depth = depth > measure->depth ? depth : measure->depth;
    measure->values++;
    if (value->kind == STRING)
        measure->characters += strlen(value->text);
    if (value->kind == NUMBER)
        measure->sum += thousandths(value->text);
    for (const struct value *member = value->first; member; member = member->next)
        take_measure(member, depth + 1, measure);
}

static void drop(struct value *value) {
    while (value) {
        struct value *next = value->next;
        drop(value->first);
        free(value->name);
        free(value->text);
        free(value);
        value = next;
    }
}

static void tell_fault(void) {
    int line = 1, column = 1;
    for (const char *c = input; c < at; c++) {
        column = *c == '\n' ? 1 : column + 1;
        line += *c == '\n';
    }
    printf("line %d, column %d: %s\n", line, column, what);
    at += strcspn(at, "\n");
}

int main(void) {
    input[fread(input, 1, ROOM - 1, stdin)] = 0;
    at = input;
    for (;;) {
        skip_blanks();
        if (!*at)
            return 0;
        if (setjmp(fault)) {
            tell_fault();
            continue;
        }
        struct value *value = read_value(0);
        struct measure measure = {0, 0, 0, 0};
        print(value);
        take_measure(value, 0, &measure);
        printf("\ndepth %d, %d values, %d characters, sum %lld\n", measure.depth, measure.values, measure.characters, measure.sum);
        drop(value);
    }
}
