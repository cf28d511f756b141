/* Dates of 1980 to 2079, by a table of the day numbers of the months' firsts. A year is its two digits, 0..99. */
#ifndef CALENDAR_H
#define CALENDAR_H

#include <stdbool.h>
#include <stdint.h>

/* 0 is 1 January 1980. Behind the 1,200 months stands the day after the last, so that each month's length is a difference. */
extern const uint16_t calendar_firsts[1200 + 1];

/* The January of a year in the table: 80..99 are 1980 to 1999, 0..79 are 2000 to 2079. */
static inline const uint16_t *calendar_january(uint32_t yy)
{
    return calendar_firsts + 12 * (yy < 80 ? yy + 20 : yy - 80);
}

static inline bool calendar_is_date(uint32_t yy, uint32_t month, uint32_t day)
{
    if (yy > 99 || month < 1 || month > 12)
        return false;
    const uint16_t *first = calendar_january(yy) + month - 1;
    return 1 <= day && day <= (uint32_t)(first[1] - first[0]);
}

/* 1 for Monday to 7 for Sunday. Day 0 was a Tuesday, one day after a Monday. */
static inline uint32_t calendar_weekday(uint32_t yy, uint32_t month, uint32_t day)
{
    return (calendar_january(yy)[month - 1] + day - 1 + 1) % 7 + 1;
}

static inline uint32_t calendar_day_of_year(uint32_t yy, uint32_t month, uint32_t day)
{
    const uint16_t *january = calendar_january(yy);
    return january[month - 1] - january[0] + day;
}

#endif
