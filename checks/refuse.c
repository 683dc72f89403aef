/* Put before a program by LD_PRELOAD, as checks/memory.sh does: of the program's requests for memory it refuses the one whose
   number REFUSE says, counted from 1, and writes a line to descriptor 3 then. */
#define _GNU_SOURCE
#include <dlfcn.h>
#include <stddef.h>
#include <stdlib.h>
#include <unistd.h>

static void *(*given_malloc)(size_t);
static void *(*given_realloc)(void *, size_t);
static long left;

__attribute__((constructor)) static void begin(void)
{
    const char *number = getenv("REFUSE");

    given_malloc = (void *(*)(size_t))dlsym(RTLD_NEXT, "malloc");
    given_realloc = (void *(*)(void *, size_t))dlsym(RTLD_NEXT, "realloc");
    left = number ? atol(number) : 0;
}

static int is_refused(void)
{
    if (left == 0 || --left > 0)
        return 0;
    if (write(3, "refused\n", 8) != 8)
        abort();
    return 1;
}

void *malloc(size_t size)
{
    if (!given_malloc)
        begin();
    return is_refused() ? NULL : given_malloc(size);
}

void *realloc(void *block, size_t size)
{
    if (!given_realloc)
        begin();
    return is_refused() ? NULL : given_realloc(block, size);
}
