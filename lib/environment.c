/* The environment, which begins empty. */
#include <errno.h>
#include <stdlib.h>
#include <string.h>

struct variable {
    struct variable *next;
    char *value;
    char name[];
};

static struct variable *variables;

static struct variable *find(const char *name) {
    struct variable *it = variables;
    while (it && strcmp(it->name, name))
        it = it->next;
    return it;
}

int system(const char *command) {
    if (!command)
        return 0;
    errno = ENOSYS;
    return -1;
}

char *getenv(const char *name) {
    struct variable *it = find(name);
    return it ? it->value : NULL;
}

int setenv(const char *name, const char *value, int replaces) {
    struct variable *it = find(name);
    if (!*name || strchr(name, '=')) {
        errno = EINVAL;
        return -1;
    }
    if (it && !replaces)
        return 0;
    char *copy = strdup(value);
    if (!it) {
        it = malloc(sizeof *it + strlen(name) + 1);
        if (!it || !copy)
            return -1;
        strcpy(it->name, name);
        it->next = variables;
        variables = it;
    }
    it->value = copy;
    return copy ? 0 : -1;
}

int unsetenv(const char *name) {
    for (struct variable **at = &variables; *at; at = &(*at)->next)
        if (!strcmp((*at)->name, name)) {
            *at = (*at)->next;
            return 0;
        }
    return 0;
}
