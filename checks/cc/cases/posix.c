/* Functions of POSIX and of the GNU library that programs take for granted. */
#define _GNU_SOURCE
#include <errno.h>
#include <fenv.h>
#include <locale.h>
#include <signal.h>
#include <stdint.h>
#include <stdio.h>
#include <stdlib.h>
#include <string.h>
#include <strings.h>
#include <time.h>
#include <unistd.h>

static int caught;

static void handle(int number) {
    caught = number;
}

static void texts(void) {
    char buffer[32], *rest = buffer, *part;
    printf("%d %d %d\n", strcasecmp("Hello", "hELLO"), strncasecmp("abcX", "ABCy", 3), strcasecmp("a", "B") < 0);
    strcpy(buffer, "one,,two;three");
    while ((part = strsep(&rest, ",;")))
        printf("<%s>", part);
    char *copy = strndup("duplicate", 3), *end = stpcpy(buffer, "stp");
    printf(" %s %d\n", copy, (int) (end - buffer));
    free(copy);
    printf("%s %s\n", (char *) memmem("a needle in", 11, "needle", 6), (char *) memrchr("abcabc", 'b', 6));
    printf("%s %s %d\n", strcasestr("find THIS one", "this"), strchrnul("abc", 'x') - 3, ffs(48));
    printf("%d %s\n", (int) strxfrm(buffer, "xfrm", sizeof buffer), buffer);
    copy = NULL;
    printf("%d %s\n", asprintf(&copy, "%d-%s", 42, "text"), copy);
    free(copy);
}

static void numbers(void) {
    unsigned int seed = 7;
    for (int i = 0; i < 3; i++)
        printf("%d ", rand_r(&seed));
    srandom(5);
    printf("%ld %ld\n", random(), random());
    for (size_t alignment = 8; alignment <= 256; alignment *= 2) {
        void *block = aligned_alloc(alignment, 3 * alignment), *other = malloc(20);
        memset(block, 1, 3 * alignment);
        printf("%d", (int) ((uintptr_t) block & (alignment - 1)));
        free(block);
        free(other);
    }
    puts("");
}

static void times(void) {
    static const int stamps[] = {0, 951782399, 951782400, 1709251199, -1, -86401, 2147483647, -2147483647};
    for (unsigned i = 0; i < sizeof stamps / sizeof *stamps; i++) {
        time_t stamp = stamps[i];
        struct tm parts = *gmtime(&stamp);
        printf("%d %s", parts.tm_yday, asctime(&parts));
    }
    struct tm parts = {.tm_year = 124, .tm_mon = 13, .tm_mday = 29, .tm_hour = 25};
    setenv("TZ", "UTC", 1);
    printf("%ld %d %d\n", (long) mktime(&parts), parts.tm_mon, parts.tm_mday);
}

int main(int count, char **arguments) {
    char *line = NULL;
    size_t room = 0;
    int option;
    texts();
    numbers();
    times();
    while ((option = getopt(count, arguments, "ab:c")) != -1)
        printf("%c %s\n", option, option == 'b' ? optarg : "");
    printf("%d %s\n", optind, arguments[optind]);
    signal(SIGTERM, handle);
    raise(SIGTERM);
    printf("%d %s\n", caught == SIGTERM, setlocale(LC_ALL, "C"));
    printf("%d %d\n", fegetround() == FE_TONEAREST, fopen("/no/such/file", "r") == NULL && errno == ENOENT);
    printf("%s %d\n", strerror(errno), getenv("NO_SUCH_NAME") == NULL);
    printf("%d\n", (int) getline(&line, &room, stdin));
    setbuf(stdout, NULL);
    write(1, "written\n", 8);
    return remove("/no/such/file") == -1 ? 3 : 0;
}
