/* The arguments of a program. */
#include <stdio.h>

int main(int argc, char **argv) {
    for (int i = 1; i < argc; i++)
        printf("%d <%s>\n", i, argv[i]);
    printf("%d %s\n", argc, argv[argc] ? "wrong" : "null");
    return argc;
}
