/* Times, in seconds since 1970. Days are counted from the first of March of a year that divides by 400, so that a day of a leap year
   is the last one of its year. */
#include <stdio.h>
#include <time.h>

#define DAY 86400
#define DAYS_BEFORE 719468          /* from March of the year 0 to 1970 */
#define ERA 146097                  /* days of 400 years */

clock_t clock(void) {
    return -1;
}

time_t time(time_t *to) {
    if (to)
        *to = -1;
    return -1;
}

int timespec_get(struct timespec *to, int base) {
    (void) base;
    *to = (struct timespec){-1, 0};
    return 0;
}

double difftime(time_t end, time_t start) {
    return (double) end - start;
}

/* Days from 1970 to the day of a month, of which January is 0. */
static int days_to(int year, int month, int day) {
    year += month / 12 - (month % 12 < 0);
    month = (month % 12 + 12) % 12;
    int shifted = month < 2 ? month + 10 : month - 2;
    year -= month < 2;
    int era = (year < 0 ? year - 399 : year) / 400, in_era = year - era * 400;
    return era * ERA + in_era * 365 + in_era / 4 - in_era / 100 + (153 * shifted + 2) / 5 + day - 1 - DAYS_BEFORE;
}

static void set_date(struct tm *to, int days) {
    to->tm_wday = ((days + 4) % 7 + 7) % 7;
    days += DAYS_BEFORE;
    int era = (days < 0 ? days - ERA + 1 : days) / ERA, in_era = days - era * ERA;
    int year = (in_era - in_era / 1460 + in_era / 36524 - in_era / 146096) / 365;
    int day = in_era - (365 * year + year / 4 - year / 100), month = (5 * day + 2) / 153;
    to->tm_mday = day - (153 * month + 2) / 5 + 1;
    to->tm_mon = month < 10 ? month + 2 : month - 10;
    year += era * 400 + (month >= 10);
    to->tm_year = year - 1900;
    to->tm_yday = days - DAYS_BEFORE - days_to(year, 0, 1);
}

struct tm *gmtime_r(const time_t *restrict time, struct tm *restrict to) {
    int days = *time / DAY, rest = *time % DAY;
    if (rest < 0) {
        rest += DAY;
        days--;
    }
    to->tm_hour = rest / 3600;
    to->tm_min = rest / 60 % 60;
    to->tm_sec = rest % 60;
    to->tm_isdst = 0;
    set_date(to, days);
    return to;
}

struct tm *gmtime(const time_t *time) {
    static struct tm parts;
    return gmtime_r(time, &parts);
}

struct tm *localtime_r(const time_t *restrict time, struct tm *restrict to) {
    return gmtime_r(time, to);
}

struct tm *localtime(const time_t *time) {
    return gmtime(time);
}

time_t mktime(struct tm *parts) {
    time_t time = days_to(parts->tm_year + 1900, parts->tm_mon, parts->tm_mday) * DAY + parts->tm_hour * 3600 + parts->tm_min * 60 + parts->tm_sec;
    gmtime_r(&time, parts);
    return time;
}

char *asctime(const struct tm *parts) {
    static char text[40];
    static const char days[] = "SunMonTueWedThuFriSat", months[] = "JanFebMarAprMayJunJulAugSepOctNovDec";
    snprintf(text, sizeof text, "%.3s %.3s%3d %.2d:%.2d:%.2d %d\n", days + 3 * parts->tm_wday, months + 3 * parts->tm_mon, parts->tm_mday,
             parts->tm_hour, parts->tm_min, parts->tm_sec, parts->tm_year + 1900);
    return text;
}

char *ctime(const time_t *time) {
    return asctime(gmtime(time));
}
