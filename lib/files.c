/* Files that a program makes: they are in memory, and gone when it ends. */
#include <errno.h>
#include <stdlib.h>
#include <string.h>
#include "memory_stream.h"

struct stored {
    struct stored *next;
    char *name, *bytes;
    size_t length;
};

static struct stored *files;

/* Where the pointer to the file with a name is, or the one after the last. */
static struct stored **find(const char *name) {
    struct stored **at = &files;
    while (*at && strcmp((*at)->name, name))
        at = &(*at)->next;
    return at;
}

static struct stored *make(const char *name) {
    struct stored *it = calloc(1, sizeof *it);
    if (!it || !(it->name = strdup(name)))
        return NULL;
    it->next = files;
    files = it;
    return it;
}

FILE *_open_file(const char *name, const char *mode) {
    struct stored *it = *find(name);
    if (!strchr("rwa", *mode) || (!it && *mode == 'r')) {
        errno = it ? EINVAL : ENOENT;
        return NULL;
    }
    if (!it)
        it = make(name);
    struct memory *memory = it ? _new_memory(0) : NULL;
    if (!memory)
        return NULL;
    if (*mode == 'w')
        it->length = 0;
    int is_updated = strchr(mode, '+') != NULL;
    memory->reads = *mode == 'r' || is_updated;
    memory->writes = *mode != 'r' || is_updated;
    memory->appends = *mode == 'a';
    memory->grows = memory->is_file = 1;
    memory->bytes = it->bytes;
    memory->length = memory->room = it->length;
    memory->at = *mode == 'a' ? it->length : 0;
    memory->told = &it->bytes;
    memory->told_length = &it->length;
    return &memory->file;
}

/* A stream that has the file open keeps its bytes. */
int remove(const char *name) {
    struct stored **at = find(name);
    if (*at) {
        *at = (*at)->next;
        return 0;
    }
    errno = ENOENT;
    return -1;
}

int rename(const char *from, const char *to) {
    struct stored *it = *find(from);
    char *name = it ? strdup(to) : NULL;
    if (!name) {
        errno = it ? ENOMEM : ENOENT;
        return -1;
    }
    if (strcmp(from, to))
        remove(to);
    it->name = name;
    return 0;
}
