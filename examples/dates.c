/* Holds the library's calendar against that of the C library, both ways and over the whole range: the date of every day, the day
 * of every date, and 12 for every day and every date that there is not. It fails at the first that is not the same. */
#define _DEFAULT_SOURCE
#include "anaqsiro.h"

#include <stdio.h>
#include <stdlib.h>
#include <string.h>
#include <time.h>

#define SECONDS 86400
#define REFUSED ((uint64_t)ANAQSIRO_OUTSIDE_RANGE << 32)

/* A date that was given, whether or not there is such a one. */
struct given {
    uint64_t year, month, day;
};

/* Gives up where an answer is not the one that is wanted. */
static void same(const char *what, uint64_t got, uint64_t wanted) {
    if (got != wanted) {
        printf("%s: number %u and value %u, not number %u and value %u\n", what, anaqsiro_number(got), anaqsiro_value(got),
               anaqsiro_number(wanted), anaqsiro_value(wanted));
        exit(1);
    }
}

/* The date of a day is as wanted. */
static uint64_t same_date(uint64_t day, uint64_t wanted) {
    char what[64];
    const uint64_t answer = anaqsiro_date(day);
    snprintf(what, sizeof what, "the date of day %llu", (unsigned long long)day);
    same(what, answer, wanted);
    return answer;
}

/* The day of a date is as wanted. */
static void same_day(struct given date, uint64_t wanted) {
    char what[128];
    snprintf(what, sizeof what, "the day of year %llu, month %llu, day %llu", (unsigned long long)date.year,
             (unsigned long long)date.month, (unsigned long long)date.day);
    same(what, anaqsiro_day(date.year, date.month, date.day), wanted);
}

/* The date of a day is the C library's, part by part, and the day of that date is the same day again. */
static void test_day(uint64_t day) {
    const time_t seconds = (time_t)day * SECONDS;
    struct tm parts;
    if (gmtime_r(&seconds, &parts) == NULL) {
        printf("the C library has no date for day %llu\n", (unsigned long long)day);
        exit(1);
    }
    const struct given date = {(uint64_t)parts.tm_year + 1900, (uint64_t)parts.tm_mon + 1, (uint64_t)parts.tm_mday};
    const uint64_t answer = same_date(day, date.day + 32 * date.month + 512 * date.year);
    same("its year", anaqsiro_date_year(answer), date.year);
    same("its month", anaqsiro_date_month(answer), date.month);
    same("its day of the month", anaqsiro_date_day(answer), date.day);
    same_day(date, day);
}

/* The day of a date as the C library has it. One that there is not comes back as another. */
static uint64_t wanted_day(struct given date) {
    struct tm parts;
    memset(&parts, 0, sizeof parts);
    parts.tm_year = (int)date.year - 1900;
    parts.tm_mon = (int)date.month - 1;
    parts.tm_mday = (int)date.day;
    const struct tm asked = parts;
    const time_t day = timegm(&parts) / SECONDS;
    const int is_date = parts.tm_year == asked.tm_year && parts.tm_mon == asked.tm_mon && parts.tm_mday == asked.tm_mday;
    return is_date && day >= 0 && day <= (time_t)ANAQSIRO_LAST_DAY ? (uint64_t)day : REFUSED;
}

/* Numbers that would be inside if only their low bits were looked at. */
static void test_great_numbers(void) {
    for (unsigned bit = 8; bit < 64; bit++) {
        const uint64_t more = (uint64_t)1 << bit;
        const struct given year = {2399 + more, 1, 1}, month = {1970, 1 + more, 1}, day = {1970, 1, 1 + more};
        same_day(year, REFUSED);
        same_day(month, REFUSED);
        same_day(day, REFUSED);
        same_date(ANAQSIRO_LAST_DAY + more, REFUSED);
        same_date(0 - more, REFUSED);
    }
    same_date(UINT64_MAX, REFUSED);
}

int main(void) {
    const unsigned first = ANAQSIRO_FIRST_YEAR - 1, last = ANAQSIRO_LAST_YEAR + 1;
    unsigned days = 0, dates = 0, none = 0;
    for (uint64_t day = 0; day <= ANAQSIRO_LAST_DAY; day++) {
        test_day(day);
        days++;
    }
    for (uint64_t day = ANAQSIRO_LAST_DAY + 1; day <= 2 * ANAQSIRO_LAST_DAY; day++) {
        same_date(day, REFUSED);
    }
    for (struct given date = {first, 0, 0}; date.year <= last; date.year++) {
        for (date.month = 0; date.month <= 13; date.month++) {
            for (date.day = 0; date.day <= 32; date.day++) {
                const uint64_t wanted = wanted_day(date);
                same_day(date, wanted);
                dates += wanted != REFUSED;
                none += wanted == REFUSED;
            }
        }
    }
    test_great_numbers();
    printf("%u days have the dates of the C library, and their dates these days; "
           "%u dates of the years %u to %u that there are not or that are outside the range give 12\n",
           days, none, first, last);
    return dates != days;
}
