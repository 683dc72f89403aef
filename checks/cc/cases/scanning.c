/* What scanf, fgets, strtol and printf did otherwise than C says. */
#include <errno.h>
#include <stdio.h>
#include <stdlib.h>
#include <string.h>

static void scan_floating(const char *text) {
    double number = -1;
    char rest[32] = "none";
    int end = -1, count = sscanf(text, "%lf%n%31s", &number, &end, rest);
    printf("%s: %d %g %d %s\n", text, count, number, end, rest);
}

int main(void) {
    static const char *const texts[] = {"2.5kg", "2.5e3kg", "0x1.8p1z", "0x1F.g", "inf", "infinityx", "-1.5.5", "1e+4+4", ".5.", "+.25e-2e", "nano", "12abc", "-", "e5", "1e5f"};
    for (unsigned i = 0; i < sizeof texts / sizeof *texts; i++)
        scan_floating(texts[i]);
    int a = -1, b = -1, c = -1;
    int count = sscanf("089", "%i%d", &a, &b);
    printf("%d %d %d\n", count, a, b);
    count = sscanf("0x1Fg 017 -0x10", "%i%*c %i %i", &a, &b, &c);
    printf("%d %d %d %d\n", count, a, b, c);
    char set[16] = "", other[16] = "";
    count = sscanf("abc-]123;rest", "%15[]a-c-]%n%15[^;]", set, &a, other);
    printf("%d %s %d %s\n", count, set, a, other);
    count = sscanf("   x", "%15[ ]%c", set, other);
    printf("%d '%s' %c\n", count, set, other[0]);
    count = sscanf("", "%15[a]%n", set, &a);
    printf("%d\n", count);
    count = sscanf("12 34", "%d %n%d%n", &a, &b, &c, &count);
    printf("%d %d %d %d\n", a, b, c, count);
    char line[4] = "abc";
    printf("%d\n", fgets(line, 1, stdin) == line && !*line);
    char *end;
    errno = 0;
    long number = strtol("11", &end, 1);
    printf("%ld %d\n", number, errno == EINVAL);
    number = strtol("zz", &end, 36);
    printf("%ld '%s'\n", number, end);
    printf("[%C] [%3C] [%ls] [%.2S]\n", L'x', L'y', L"wide", L"cut");
    return 0;
}
