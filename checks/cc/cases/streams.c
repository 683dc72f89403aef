/* Streams over memory, streams that are opened again, and the ends of a program that few call. */
#define _GNU_SOURCE
#include <errno.h>
#include <math.h>
#include <signal.h>
#include <stdio.h>
#include <stdlib.h>
#include <string.h>

static void show(const char *what, FILE *stream) {
    long at = ftell(stream);
    printf("%s: at %ld, ended %d, failed %d\n", what, at, feof(stream) != 0, ferror(stream) != 0);
}

static void read_memory(void) {
    char given[] = "12 words, and\n3.5 more", line[32];
    int number = 0;
    double other = 0;
    FILE *stream = fmemopen(given, sizeof given - 1, "r");
    int found = fscanf(stream, "%d", &number);
    printf("%d %d %c\n", found, number, ungetc('x', stream));
    printf("%s", fgets(line, sizeof line, stream));
    show("read", stream);
    found = fscanf(stream, "%lf", &other);
    printf("%d %g\n", found, other);
    fseek(stream, -4, SEEK_END);
    while (fgetc(stream) != EOF)
        ;
    show("end", stream);
    rewind(stream);
    show("again", stream);
    found = fread(line, 2, 4, stream);
    printf("%d %.8s\n", found, line);
    found = fseek(stream, 100, SEEK_SET);
    printf("%d %d\n", found, fclose(stream));
}

static void write_memory(void) {
    char room[16] = "before";
    FILE *stream = fmemopen(room, sizeof room, "w");
    fprintf(stream, "%d-%s", 42, "ab");
    fflush(stream);
    printf("'%s' %d\n", room, room[6]);
    fseek(stream, 1, SEEK_SET);
    fputc('+', stream);
    fclose(stream);
    printf("'%s'\n", room);
    stream = fmemopen(room, sizeof room, "a+");
    fputs(" more", stream);
    fseek(stream, 0, SEEK_SET);
    int first = fgetc(stream);
    fclose(stream);
    printf("'%s' %c\n", room, first);
    stream = fmemopen(NULL, 8, "w+");
    fputs("own", stream);
    rewind(stream);
    for (int c; (c = fgetc(stream)) != EOF;)
        printf("%c.", c);
    fclose(stream);
    printf("%d\n", fmemopen(room, 3, "x") == NULL);
}

static void grow_memory(void) {
    char *text = NULL;
    size_t length = 0;
    FILE *stream = open_memstream(&text, &length);
    for (int i = 0; i < 100; i++)
        fprintf(stream, "%d,", i);
    fflush(stream);
    printf("%zu %s\n", length, text);
    fseek(stream, 5, SEEK_SET);
    fflush(stream);
    printf("%zu\n", length);
    fputs("....", stream);
    fseek(stream, 295, SEEK_SET);
    fputc('!', stream);
    fclose(stream);
    printf("%zu %.12s %d %c\n", length, text, text[292], text[295]);
    free(text);
    stream = tmpfile();
    fputs("line one\nline two\n", stream);
    rewind(stream);
    fpos_t second;
    char line[20];
    fgets(line, sizeof line, stream);
    fgetpos(stream, &second);
    fgets(line, sizeof line, stream);
    printf("%s", line);
    fsetpos(stream, &second);
    fgets(line, sizeof line, stream);
    printf("%s", line);
    fclose(stream);
}

static void open_again(void) {
    char first[L_tmpnam], second[L_tmpnam];
    printf("%d %d\n", strcmp(tmpnam(first), tmpnam(second)) != 0, strcmp(tmpnam(NULL), first) != 0);
    printf("%d ", fopen(first, "r") == NULL);
    printf("%d\n", errno == ENOENT);
    printf("%d\n", freopen("/nowhere/file", "r", stdin) == NULL && errno == ENOENT);
    printf("%d %d\n", fputc('x', stdin), system(NULL) >= 0);
    printf("%a %a\n", nexttoward(1, 2), (double) nexttowardf(1, 0));
}

static void show_file(const char *name, const char *mode) {
    char line[40];
    FILE *file = fopen(name, mode);
    if (!file) {
        printf("%d\n", errno == ENOENT);
        return;
    }
    while (fgets(line, sizeof line, file))
        printf("%s|", line);
    fclose(file);
}

static void store_files(void) {
    char name[L_tmpnam], other[L_tmpnam];
    tmpnam(name), tmpnam(other);
    show_file(name, "r");
    FILE *file = fopen(name, "w");
    for (int i = 0; i < 40; i++)
        fprintf(file, "%d ", i);
    fputs("\nlast", file);
    fclose(file);
    show_file(name, "r");
    file = fopen(name, "a+");
    fputs(" more\n", file);
    fseek(file, 2, SEEK_SET);
    printf("%c\n", fgetc(file));
    fclose(file);
    file = fopen(name, "r+");
    fputs("begin", file);
    fclose(file);
    printf("%d\n", rename(name, other));
    show_file(name, "r");
    show_file(other, "r");
    fclose(fopen(other, "w"));
    show_file(other, "r");
    printf("%d ", remove(other));
    printf("%d\n", remove(other));
}

static void last(void) {
    puts("last");
    fflush(stdout);
}

static void first(void) {
    puts("first");
}

static void aborted(int number) {
    printf("aborted %d\n", number == SIGABRT);
    at_quick_exit(last);
    at_quick_exit(first);
    fflush(stdout);
    quick_exit(3);
}

int main(void) {
    read_memory();
    write_memory();
    grow_memory();
    open_again();
    store_files();
    signal(SIGABRT, aborted);
    abort();
}
