/* Strings without regard to case, and old names. */
#ifndef _STRINGS_H
#define _STRINGS_H

#include <stddef.h>

int strcasecmp(const char *left, const char *right);
int strncasecmp(const char *left, const char *right, size_t count);
void bzero(void *block, size_t count);
void bcopy(const void *from, void *to, size_t count);
int bcmp(const void *left, const void *right, size_t count);
char *index(const char *text, int c);
char *rindex(const char *text, int c);
int ffs(int value);

#endif
