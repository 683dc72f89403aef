/* A search by regular expressions: each line of the input that the pattern of the first line matches. A pattern has
   characters, `.`, sets as [a-z] and [^0-9], `^`, `$`, `*`, `+`, `?`, groups and `|`. It is matched by going back. */
#include <stdio.h>
#include <string.h>

#define LINE 100

/* What stands behind an element: a pattern goes on there when the element has matched. */
struct after {
    const char *pattern, *end;
    const struct after *next;
};

static const char *start_of_line;

static int match(const char *pattern, const char *end, const char *text, const struct after *after);

static int go_on(const char *text, const struct after *after) {
    return !after || match(after->pattern, after->end, text, after->next);
}

/* The end of the element that begins here. */
static const char *element_end(const char *pattern) {
    if (*pattern == '\\')
        return pattern + 2;
    if (*pattern == '[') {
        pattern += pattern[1] == '^' ? 3 : 2;
        while (*pattern != ']')
            pattern++;
        return pattern + 1;
    }
    if (*pattern == '(') {
        int depth = 0;
        do {
            depth += (*pattern == '(') - (*pattern == ')');
            pattern++;
        } while (depth);
        return pattern;
    }
    return pattern + 1;
}

static int is_in_set(const char *set, char c) {
    int is_other = *set == '^', is_there = 0;
    set += is_other;
    do {
        if (set[1] == '-' && set[2] != ']') {
            is_there |= set[0] <= c && c <= set[2];
            set += 3;
        } else {
            is_there |= *set++ == c;
        }
    } while (*set != ']');
    return is_there != is_other;
}

static int matches_one(const char *element, char c) {
    if (!c)
        return 0;
    if (*element == '[')
        return is_in_set(element + 1, c);
    return *element == '.' || (*element == '\\' ? element[1] : *element) == c;
}

/* One time the element, then what stands behind it. */
static int match_element(const char *element, const char *end, const char *text, const struct after *after) {
    if (*element == '(')
        return match(element + 1, end - 1, text, after);
    return matches_one(element, *text) && go_on(text + 1, after);
}

/* The element as often as it goes, by the sign behind it: the longest way is tried first. */
static int match_many(const char *element, const char *sign, const char *text, const struct after *after) {
    struct after again = {element, sign + 1, after};
    switch (*sign) {
    case '?':
        return match_element(element, sign, text, after) || go_on(text, after);
    case '*':
        return match_element(element, sign, text, &again) || go_on(text, after);
    default:
        return match_element(element, sign, text, &again) || match_element(element, sign, text, after);
    }
}

static int match_sequence(const char *pattern, const char *end, const char *text, const struct after *after) {
    if (pattern == end)
        return go_on(text, after);
    if (*pattern == '^')
        return text == start_of_line && match_sequence(pattern + 1, end, text, after);
    if (*pattern == '$')
        return *text == 0 && match_sequence(pattern + 1, end, text, after);
    const char *behind = element_end(pattern);
    int is_many = behind < end && strchr("*+?", *behind);
    struct after rest = {behind + is_many, end, after};
    return is_many ? match_many(pattern, behind, text, &rest) : match_element(pattern, behind, text, &rest);
}

/* One of the alternatives. */
static int match(const char *pattern, const char *end, const char *text, const struct after *after) {
    for (const char *at = pattern;; at = element_end(at)) {
        const char *stop = at < end ? at : end;
        if (at >= end || *at == '|') {
            if (match_sequence(pattern, stop, text, after))
                return 1;
            if (at >= end)
                return 0;
            pattern = at + 1;
        }
    }
}

static int is_found(const char *pattern, const char *line) {
    start_of_line = line;
    for (const char *text = line;; text++) {
        if (match(pattern, pattern + strlen(pattern), text, NULL))
            return 1;
        if (!*text)
            return 0;
    }
}

/* A line without its end; 0 where there is none. */
static int read_line(char *line) {
    if (!fgets(line, LINE, stdin))
        return 0;
    line[strcspn(line, "\n")] = 0;
    return 1;
}

/* An empty line is followed by the next pattern. */
int main(void) {
    char pattern[LINE], line[LINE];
    while (read_line(pattern)) {
        printf("== %s\n", pattern);
        while (read_line(line) && *line)
            if (is_found(pattern, line))
                puts(line);
    }
    return 0;
}
