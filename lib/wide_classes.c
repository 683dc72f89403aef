/* Classes of wide characters. A wide character of ASCII is in the classes of its byte, any other one, as WEOF, in none. */
#include <ctype.h>
#include <string.h>
#include <wctype.h>

enum { AFTER_ASCII = 128 };

#define CLASS(wide, narrow)               \
    int wide(wint_t c) {                  \
        return c < AFTER_ASCII && narrow(c); \
    }

CLASS(iswalnum, isalnum)
CLASS(iswalpha, isalpha)
CLASS(iswblank, isblank)
CLASS(iswcntrl, iscntrl)
CLASS(iswdigit, isdigit)
CLASS(iswgraph, isgraph)
CLASS(iswlower, islower)
CLASS(iswprint, isprint)
CLASS(iswpunct, ispunct)
CLASS(iswspace, isspace)
CLASS(iswupper, isupper)
CLASS(iswxdigit, isxdigit)

wint_t towlower(wint_t c) {
    return c < AFTER_ASCII ? (wint_t) tolower(c) : c;
}

wint_t towupper(wint_t c) {
    return c < AFTER_ASCII ? (wint_t) toupper(c) : c;
}

static const struct {
    const char *name;
    wctype_t holds;
} classes[] = {
    {"alnum", iswalnum}, {"alpha", iswalpha}, {"blank", iswblank}, {"cntrl", iswcntrl}, {"digit", iswdigit}, {"graph", iswgraph},
    {"lower", iswlower}, {"print", iswprint}, {"punct", iswpunct}, {"space", iswspace}, {"upper", iswupper}, {"xdigit", iswxdigit},
};

wctype_t wctype(const char *name) {
    for (size_t i = 0; i < sizeof classes / sizeof *classes; i++)
        if (!strcmp(name, classes[i].name))
            return classes[i].holds;
    return NULL;
}

int iswctype(wint_t c, wctype_t class) {
    return class && class(c);
}

wctrans_t wctrans(const char *name) {
    return !strcmp(name, "tolower") ? towlower : !strcmp(name, "toupper") ? towupper : NULL;
}

wint_t towctrans(wint_t c, wctrans_t change) {
    return change ? change(c) : c;
}
