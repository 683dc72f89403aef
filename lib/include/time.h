/* Times. The machine has no clock that a program can read: `time` and `clock` say so by -1. */
#ifndef _TIME_H
#define _TIME_H

#include <stddef.h>

#define CLOCKS_PER_SEC 1000000

typedef long clock_t;
typedef long time_t;

/* In Greenwich: no other place is known. */
struct tm {
    int tm_sec, tm_min, tm_hour, tm_mday, tm_mon, tm_year, tm_wday, tm_yday, tm_isdst;
};

struct timespec {
    time_t tv_sec;
    long tv_nsec;
};

#define TIME_UTC 1

clock_t clock(void);
time_t time(time_t *to);
int timespec_get(struct timespec *to, int base);
double difftime(time_t end, time_t start);
struct tm *gmtime(const time_t *time);
struct tm *localtime(const time_t *time);
struct tm *gmtime_r(const time_t *__restrict time, struct tm *__restrict to);
struct tm *localtime_r(const time_t *__restrict time, struct tm *__restrict to);
time_t mktime(struct tm *parts);
size_t strftime(char *__restrict to, size_t room, const char *__restrict format, const struct tm *__restrict parts);
char *asctime(const struct tm *parts);
char *ctime(const time_t *time);

#endif
