/* Reading the input and writing to the console. stdout and stderr are the console, stdin is the input, and nothing is
   buffered. Files are those that the program makes itself. */
#ifndef _STDIO_H
#define _STDIO_H

#include <stdarg.h>
#include <stddef.h>

typedef struct _file FILE;
extern FILE *const stdin, *const stdout, *const stderr;

typedef int ssize_t;
typedef long fpos_t;

#define EOF (-1)
#define BUFSIZ 256
#define FILENAME_MAX 255
#define FOPEN_MAX 8
#define L_tmpnam 16
#define TMP_MAX 1000000
#define _IOFBF 0
#define _IOLBF 1
#define _IONBF 2
#define SEEK_SET 0
#define SEEK_CUR 1
#define SEEK_END 2

int getchar(void);
int fgetc(FILE *stream);
int getc(FILE *stream);
int ungetc(int c, FILE *stream);
char *fgets(char *__restrict line, int room, FILE *__restrict stream);
size_t fread(void *__restrict to, size_t size, size_t count, FILE *__restrict stream);

int putchar(int c);
int fputc(int c, FILE *stream);
int putc(int c, FILE *stream);
int puts(const char *line);
int fputs(const char *__restrict text, FILE *__restrict stream);
size_t fwrite(const void *__restrict from, size_t size, size_t count, FILE *__restrict stream);
void perror(const char *text);

int feof(FILE *stream);
int ferror(FILE *stream);
void clearerr(FILE *stream);
int fflush(FILE *stream);
void setbuf(FILE *__restrict stream, char *__restrict buffer);
int setvbuf(FILE *__restrict stream, char *__restrict buffer, int mode, size_t size);
ssize_t getline(char **__restrict line, size_t *__restrict room, FILE *__restrict stream);
ssize_t getdelim(char **__restrict line, size_t *__restrict room, int delimiter, FILE *__restrict stream);

/* /dev/stdin, /dev/stdout, /dev/stderr, and files in memory, which end with the program. */
FILE *fopen(const char *__restrict name, const char *__restrict mode);
FILE *freopen(const char *__restrict name, const char *__restrict mode, FILE *__restrict stream);
int fclose(FILE *stream);
int fileno(FILE *stream);
int fseek(FILE *stream, long offset, int from);
long ftell(FILE *stream);
int fgetpos(FILE *__restrict stream, fpos_t *__restrict to);
int fsetpos(FILE *stream, const fpos_t *from);
void rewind(FILE *stream);
int remove(const char *name);
int rename(const char *from, const char *to);
char *tmpnam(char *to);

/* Streams over memory. */
FILE *fmemopen(void *__restrict buffer, size_t size, const char *__restrict mode);
FILE *open_memstream(char **to, size_t *length);
FILE *tmpfile(void);

#define _PRINTS(text, first) __attribute__((__format__(__printf__, text, first)))
#define _SCANS(text, first) __attribute__((__format__(__scanf__, text, first)))

int printf(const char *__restrict format, ...) _PRINTS(1, 2);
int fprintf(FILE *__restrict stream, const char *__restrict format, ...) _PRINTS(2, 3);
int sprintf(char *__restrict to, const char *__restrict format, ...) _PRINTS(2, 3);
int snprintf(char *__restrict to, size_t room, const char *__restrict format, ...) _PRINTS(3, 4);
int vprintf(const char *__restrict format, va_list list) _PRINTS(1, 0);
int vfprintf(FILE *__restrict stream, const char *__restrict format, va_list list) _PRINTS(2, 0);
int vsprintf(char *__restrict to, const char *__restrict format, va_list list) _PRINTS(2, 0);
int vsnprintf(char *__restrict to, size_t room, const char *__restrict format, va_list list) _PRINTS(3, 0);
int asprintf(char **__restrict to, const char *__restrict format, ...) _PRINTS(2, 3);
int vasprintf(char **__restrict to, const char *__restrict format, va_list list) _PRINTS(2, 0);

int scanf(const char *__restrict format, ...) _SCANS(1, 2);
int fscanf(FILE *__restrict stream, const char *__restrict format, ...) _SCANS(2, 3);
int sscanf(const char *__restrict text, const char *__restrict format, ...) _SCANS(2, 3);
int vscanf(const char *__restrict format, va_list list) _SCANS(1, 0);
int vfscanf(FILE *__restrict stream, const char *__restrict format, va_list list) _SCANS(2, 0);
int vsscanf(const char *__restrict text, const char *__restrict format, va_list list) _SCANS(2, 0);

#endif
