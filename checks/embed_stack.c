/* Runs commands of the library, each in a thread of its own whose stack has ZANDERANVIL_STACK bytes, which the header promises to be
   enough: below it is a page that cannot be touched. Prints how much of the stack the deepest call took. checks/embed.sh runs it.
   usage: embed_stack FILE ..    sources, each of which every command is called with */
#define _GNU_SOURCE
#include <pthread.h>
#include <stdio.h>
#include <stdlib.h>
#include <sys/mman.h>
#include <zanderanvil.h>

enum { PAGE = 4096, MOST_SOURCE = 4194304, ROOM = 1 << 24, FILL = 0xA5 };

static const char *const commands[] = {
    "run\nsource\n--trace\n100\n--dump\n256\n--count\n16\n--interrupts\ninterrupts", "meaning\nsource", "list\nsource", "build\nsource\nbuilt",
    "exec\nimage\n--budget\n100000", "migrate\nimage\nbuilt", "debug\nsource\nL", "best\nsource", "share\nsource\nsecond",
    "join\nsource\nsecond", "gen\n1\n400", "soak\n1\n40", "", "run\nabsent", "typo",
};

static zanderanvil_call call;
static uint8_t *output, *file, *image;
static zanderanvil_outcome outcome;

static void *work(void *nothing)
{
    outcome = zanderanvil_command(&call, output, ROOM, file, ROOM);
    return nothing;
}

static uint8_t *pages(size_t size, int rights)
{
    uint8_t *all = mmap(NULL, size, rights, MAP_PRIVATE | MAP_ANONYMOUS | MAP_NORESERVE, -1, 0);
    if (all == MAP_FAILED)
        exit(2);
    return all;
}

/* Runs the call in a thread, and returns how many bytes of its stack are no longer as they were. */
static size_t used(void)
{
    size_t size = ZANDERANVIL_STACK, least = 0;
    uint8_t *all = pages(size + PAGE, PROT_NONE);
    pthread_attr_t attributes;
    pthread_t thread;
    if (mprotect(all + PAGE, size, PROT_READ | PROT_WRITE))
        exit(2);
    memset(all + PAGE, FILL, size);
    if (pthread_attr_init(&attributes) || pthread_attr_setstack(&attributes, all + PAGE, size)
        || pthread_create(&thread, &attributes, work, NULL) || pthread_join(thread, NULL))
        exit(2);
    while (least < size && all[PAGE + least] == FILL)
        least++;
    munmap(all, size + PAGE);
    return size - least;
}

static zanderanvil_bytes read_file(const char *name)
{
    uint8_t *bytes = malloc(MOST_SOURCE);
    FILE *it = fopen(name, "rb");
    zanderanvil_bytes lent;
    if (!bytes || !it)
        exit(2);
    lent.bytes = bytes;
    lent.length = fread(bytes, 1, MOST_SOURCE, it);
    fclose(it);
    return lent;
}

int main(int count, char **names)
{
    size_t most = 0, calls = 0;
    const char *deepest = "";
    output = pages(ROOM, PROT_READ | PROT_WRITE);
    file = pages(ROOM, PROT_READ | PROT_WRITE);
    image = pages(ROOM, PROT_READ | PROT_WRITE);
    for (int i = 1; i < count; i++) {
        zanderanvil_bytes source = read_file(names[i]);
        call = zanderanvil_ask("build\nsource\nbuilt");
        call.source = source;
        outcome = zanderanvil_command(&call, output, ROOM, image, ROOM);
        for (size_t j = 0; j < sizeof commands / sizeof *commands; j++) {
            zanderanvil_bytes built = { image, outcome.file };
            call = zanderanvil_ask(commands[j]);
            call.source = call.second = source;
            call.interrupts = zanderanvil_text("3\n9\n");
            call.image = built;
            size_t file_length = outcome.file, taken = used();
            outcome.file = file_length;
            calls++;
            if (taken > most) {
                most = taken;
                deepest = commands[j];
            }
        }
    }
    printf("%zu calls in threads with a stack of %d bytes, of which the deepest took %zu: %.*s\n", calls, ZANDERANVIL_STACK, most,
           (int)strcspn(deepest, "\n"), deepest);
    return calls == 0 || most == 0;
}
