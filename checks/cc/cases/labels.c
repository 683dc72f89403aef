/* Labels as values: tested, compared, subtracted, kept in memory and copied byte by byte; and a switch in the same function. */
#include <stdio.h>
#include <string.h>

static int run(const char *program) {
    static void *const steps[] = {&&add, &&twice, &&end};
    static const int far[] = {&&add - &&add, &&twice - &&add, &&end - &&add};
    void *copies[3];
    void *next;
    int value = 1;
    memcpy(copies, steps, sizeof steps);
    if (copies[0] == copies[1] || !copies[2])
        return -1;
go:
    switch (*program) {
        case 'a': next = steps[0]; break;
        case 'b': next = copies[1]; break;
        case 'c': next = &&add + far[1]; break;
        case 'd': next = &&minus; break;
        case 'e': next = &&end; break;
        case 'f': value += 100; program++; goto go;
        default: return -2;
    }
    program++;
    if (next != &&end)
        printf("%c", next == &&twice ? '2' : next == &&minus ? '-' : '+');
    goto *next;
add:
    value++;
    goto go;
twice:
    value *= 2;
    goto go;
minus:
    value--;
    goto go;
end:
    return value;
}

int main(void) {
    printf(" %d\n", run("aabcdfe"));
    printf(" %d\n", run("ddddce"));
    printf(" %d\n", run("az"));
    return 0;
}
