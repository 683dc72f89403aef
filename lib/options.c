/* Options of a program. */
#include <getopt.h>
#include <stdio.h>
#include <stdlib.h>
#include <string.h>

char *optarg;
int optind = 1, opterr = 1, optopt;

static char *letter;                /* the next one of an argument with several */

static int is_within(void) {
    return letter && *letter;
}

/* What a caller gets for an option that is wrong, or whose value is missing. */
static int wrong(const char *options, int is_missing) {
    return is_missing && *options == ':' ? ':' : '?';
}

static int wrong_letter(char *const arguments[], const char *options, const char *why, int is_missing) {
    if (opterr && *options != ':')
        fprintf(stderr, "%s: %s -- '%c'\n", arguments[0], why, optopt);
    return wrong(options, is_missing);
}

static int wrong_name(char *const arguments[], const char *options, const char *before, const char *name, const char *why) {
    if (opterr && *options != ':')
        fprintf(stderr, "%s: %s'--%s'%s\n", arguments[0], before, name, why);
    return wrong(options, !strcmp(why, " requires an argument"));
}

/* The value of an option: the rest of its argument, or the next one. */
static int take_value(int count, char *const arguments[], const char *options) {
    optarg = *letter ? letter : optind < count ? arguments[optind] : NULL;
    if (!*letter)
        optind++;
    letter = NULL;
    if (optarg)
        return optopt;
    optind = count;
    return wrong_letter(arguments, options, "option requires an argument", 1);
}

static int take_letter(int count, char *const arguments[], const char *options) {
    optopt = *letter++;
    const char *found = optopt == ':' ? NULL : strchr(options, optopt);
    if (!*letter)
        letter = "";
    if (!found)
        return wrong_letter(arguments, options, "invalid option", 0);
    if (found[1] != ':')
        return optopt;
    if (found[2] != ':')
        return take_value(count, arguments, options);
    optarg = *letter ? letter : NULL;
    letter = NULL;
    return optopt;
}

static int is_option(const char *argument) {
    return argument[0] == '-' && argument[1];
}

/* Options are before all other arguments. */
int getopt(int count, char *const arguments[], const char *options) {
    options += *options == '+';
    optarg = NULL;
    if (!is_within()) {
        char *argument = optind < count ? arguments[optind] : NULL;
        if (!argument || !is_option(argument))
            return -1;
        optind++;
        if (!strcmp(argument, "--"))
            return -1;
        letter = argument + 1;
    }
    return take_letter(count, arguments, options);
}

/* The option of a name, or of the only one that begins so: its number; -1 if there is none, -2 if there are several. */
static int number_of(const struct option *named, const char *name, size_t length) {
    int found = -1;
    for (int i = 0; named[i].name; i++) {
        if (strncmp(named[i].name, name, length))
            continue;
        if (!named[i].name[length])
            return i;
        found = found == -1 ? i : -2;
    }
    return found;
}

static int take_name(int count, char *const arguments[], const char *options, const struct option *named, int *index) {
    char *name = arguments[optind++] + 2, *value = strchr(name, '=');
    size_t length = value ? (size_t) (value - name) : strlen(name);
    int number = number_of(named, name, length);
    optopt = 0;
    if (number == -2)
        return wrong_name(arguments, options, "option ", name, " is ambiguous");
    if (number == -1)
        return wrong_name(arguments, options, "unrecognized option ", name, "");
    const struct option *found = named + number;
    if (value && found->has_arg == no_argument) {
        optopt = found->val;
        return wrong_name(arguments, options, "option ", found->name, " doesn't allow an argument");
    }
    if (!value && found->has_arg == required_argument) {
        if (optind == count) {
            optopt = found->val;
            return wrong_name(arguments, options, "option ", found->name, " requires an argument");
        }
        optarg = arguments[optind++];
    } else if (value) {
        optarg = value + 1;
    }
    if (index)
        *index = number;
    if (!found->flag)
        return found->val;
    *found->flag = found->val;
    return 0;
}

/* The arguments that were passed over, since they are no options: they are moved after the option that follows them. */
static int passed, option_at;

static void move_passed(char *arguments[]) {
    for (; option_at < optind; option_at++, passed++) {
        char *moved = arguments[option_at];
        memmove(arguments + passed + 1, arguments + passed, (option_at - passed) * sizeof *arguments);
        arguments[passed] = moved;
    }
    optind = passed;
}

/* Options may be between other arguments, unless `options` begins with a plus sign. */
int getopt_long(int count, char *const arguments[], const char *options, const struct option *named, int *index) {
    int is_first = *options == '+', answer;
    options += is_first;
    optarg = NULL;
    if (!is_within()) {
        passed = option_at = optind;
        while (!is_first && option_at < count && !is_option(arguments[option_at]))
            option_at++;
        if (option_at >= count)
            return -1;
        optind = option_at;
    }
    if (!is_within() && !strncmp(arguments[optind], "--", 2) && arguments[optind][2])
        answer = take_name(count, arguments, options, named, index);
    else
        answer = getopt(count, arguments, options);
    if (!is_within() && passed < option_at)
        move_passed((char **) arguments);
    return answer;
}
