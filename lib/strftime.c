/* Times as texts, in the locale C and in Greenwich. */
#include <stdio.h>
#include <string.h>
#include <time.h>

#define FIRST_YEAR 1900

static const char *const days[] = {"Sunday", "Monday", "Tuesday", "Wednesday", "Thursday", "Friday", "Saturday"};
static const char *const months[] = {"January", "February", "March",     "April",   "May",      "June",
                                     "July",    "August",   "September", "October", "November", "December"};

struct text {
    char *at;
    size_t room;
    int is_full;
};

static void put_text(struct text *to, const char *text, size_t length) {
    if (length > to->room) {
        to->is_full = 1;
        return;
    }
    memcpy(to->at, text, length);
    to->at += length;
    to->room -= length;
}

static void put_number(struct text *to, const char *format, int number) {
    char digits[16];
    put_text(to, digits, snprintf(digits, sizeof digits, format, number));
}

static int is_leap(int year) {
    return year % 4 == 0 && (year % 100 != 0 || year % 400 == 0);
}

/* The week of the year by which ISO 8601 counts: the first one has the first Thursday. The year may be the one before or after. */
static int week_of(const struct tm *parts, int *year) {
    int monday = (parts->tm_wday + 6) % 7, thursday = parts->tm_yday - monday + 3;
    *year = parts->tm_year + FIRST_YEAR;
    if (thursday < 0)
        thursday += 365 + is_leap(--*year);
    else if (thursday >= 365 + is_leap(*year))
        thursday -= 365 + is_leap((*year)++);
    return thursday / 7 + 1;
}

static void put_part(struct text *to, char letter, const struct tm *parts);

static void put_parts(struct text *to, const char *format, const struct tm *parts) {
    for (; *format; format++) {
        if (*format != '%') {
            put_text(to, format, 1);
            continue;
        }
        format++;
        if (*format == 'E' || *format == 'O')
            format++;
        put_part(to, *format, parts);
    }
}

static void put_name(struct text *to, const char *const *names, int count, int index, size_t most) {
    const char *name = index >= 0 && index < count ? names[index] : "?";
    put_text(to, name, strnlen(name, most));
}

/* Parts that are made of other ones. */
static const char *format_of(char letter) {
    switch (letter) {
    case 'c': return "%a %b %e %H:%M:%S %Y";
    case 'D':
    case 'x': return "%m/%d/%y";
    case 'F': return "%Y-%m-%d";
    case 'r': return "%I:%M:%S %p";
    case 'R': return "%H:%M";
    case 'T':
    case 'X': return "%H:%M:%S";
    case 'n': return "\n";
    case 't': return "\t";
    case 'z': return "+0000";
    case 'Z': return "GMT";
    default: return NULL;
    }
}

static void put_part(struct text *to, char letter, const struct tm *parts) {
    int year = parts->tm_year + FIRST_YEAR, week_year, week = week_of(parts, &week_year);
    const char *format = format_of(letter);
    if (format) {
        put_parts(to, format, parts);
        return;
    }
    switch (letter) {
    case 'a': put_name(to, days, 7, parts->tm_wday, 3); break;
    case 'A': put_name(to, days, 7, parts->tm_wday, -1); break;
    case 'b':
    case 'h': put_name(to, months, 12, parts->tm_mon, 3); break;
    case 'B': put_name(to, months, 12, parts->tm_mon, -1); break;
    case 'C': put_number(to, "%02d", year / 100); break;
    case 'd': put_number(to, "%02d", parts->tm_mday); break;
    case 'e': put_number(to, "%2d", parts->tm_mday); break;
    case 'g': put_number(to, "%02d", week_year % 100); break;
    case 'G': put_number(to, "%d", week_year); break;
    case 'H': put_number(to, "%02d", parts->tm_hour); break;
    case 'I': put_number(to, "%02d", (parts->tm_hour + 11) % 12 + 1); break;
    case 'j': put_number(to, "%03d", parts->tm_yday + 1); break;
    case 'k': put_number(to, "%2d", parts->tm_hour); break;
    case 'm': put_number(to, "%02d", parts->tm_mon + 1); break;
    case 'M': put_number(to, "%02d", parts->tm_min); break;
    case 'p': put_text(to, parts->tm_hour < 12 ? "AM" : "PM", 2); break;
    case 's': put_number(to, "%d", mktime(&(struct tm){.tm_sec = parts->tm_sec, .tm_min = parts->tm_min, .tm_hour = parts->tm_hour,
                                                       .tm_mday = parts->tm_mday, .tm_mon = parts->tm_mon, .tm_year = parts->tm_year})); break;
    case 'S': put_number(to, "%02d", parts->tm_sec); break;
    case 'u': put_number(to, "%d", (parts->tm_wday + 6) % 7 + 1); break;
    case 'U': put_number(to, "%02d", (parts->tm_yday + 7 - parts->tm_wday) / 7); break;
    case 'V': put_number(to, "%02d", week); break;
    case 'w': put_number(to, "%d", parts->tm_wday); break;
    case 'W': put_number(to, "%02d", (parts->tm_yday + 7 - (parts->tm_wday + 6) % 7) / 7); break;
    case 'y': put_number(to, "%02d", year % 100); break;
    case 'Y': put_number(to, "%d", year); break;
    default: put_text(to, &letter, 1);
    }
}

size_t strftime(char *restrict to, size_t room, const char *restrict format, const struct tm *restrict parts) {
    struct text text = {to, room, 0};
    put_parts(&text, format, parts);
    put_text(&text, "", 1);
    return text.is_full ? 0 : text.at - to - 1;
}
