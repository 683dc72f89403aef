/* Classes of characters, of ASCII alone. */
#include <ctype.h>

static int is_between(int c, int first, int last) {
    return (unsigned) c - first <= (unsigned) last - first;
}

int isdigit(int c) {
    return is_between(c, '0', '9');
}

int islower(int c) {
    return is_between(c, 'a', 'z');
}

int isupper(int c) {
    return is_between(c, 'A', 'Z');
}

int isalpha(int c) {
    return is_between(c | ('a' - 'A'), 'a', 'z');
}

int isalnum(int c) {
    return isalpha(c) || isdigit(c);
}

int isblank(int c) {
    return c == ' ' || c == '\t';
}

int isspace(int c) {
    return c == ' ' || is_between(c, '\t', '\r');
}

int iscntrl(int c) {
    return is_between(c, 0, ' ' - 1) || c == 127;
}

int isprint(int c) {
    return is_between(c, ' ', '~');
}

int isgraph(int c) {
    return is_between(c, ' ' + 1, '~');
}

int ispunct(int c) {
    return isgraph(c) && !isalnum(c);
}

int isxdigit(int c) {
    return isdigit(c) || is_between(c | ('a' - 'A'), 'a', 'f');
}

int tolower(int c) {
    return isupper(c) ? c + ('a' - 'A') : c;
}

int toupper(int c) {
    return islower(c) ? c - ('a' - 'A') : c;
}
