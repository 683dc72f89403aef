/* What the parts of printf share: where characters go, and what a conversion asks for. */
#ifndef _FORMAT_H
#define _FORMAT_H

#include <stddef.h>
#include <stdio.h>

struct sink {
    FILE *stream;           /* or none, and then: */
    char *to;
    size_t room;            /* characters that find room there */
    size_t count;           /* all that were given */
};

enum size { SIZE_INT, SIZE_CHAR, SIZE_SHORT, SIZE_LONG, SIZE_LONG_LONG };

struct conversion {
    char is_left, has_zeros, has_plus, has_space, is_alternate;
    int width;
    int precision;          /* -1 where none is given */
    enum size size;
    char letter;
};

void _put(struct sink *sink, char c);
void _put_text(struct sink *sink, const char *text, int length);
void _put_many(struct sink *sink, char c, int times);
/* Begins a field of so many characters behind its prefix: blanks, the prefix, zeros. */
void _begin_field(struct sink *sink, const struct conversion *conversion, const char *prefix, int length);
/* Ends it: blanks where it stands to the left. */
void _end_field(struct sink *sink, const struct conversion *conversion, const char *prefix, int length);
void _put_double(struct sink *sink, const struct conversion *conversion, double value);

#endif
