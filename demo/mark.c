/* Time marks. */
#include "mark.h"

#include <inttypes.h>
#include <stdio.h>

const time_mark our_mark = {1772456709, QUARTER, 60, OUR_TIME};

uint32_t read_number(const uint8_t *bytes)
{
    uint32_t number = 0;
    for (int i = 0; i < 4; i++)
        number = number << 8 | bytes[i];
    return number;
}

uint32_t write_mark(const time_mark *mark, uint8_t body[BODY_BYTES])
{
    return rasppuce_write_body(mark->seconds, mark->fraction, 1, mark->offset, body, BODY_BYTES);
}

/* ---- the time as text */

enum { DAY_SECONDS = 86400, DAYS_OF_400_YEARS = 146097 };

typedef struct {
    uint64_t year;
    unsigned month, day;
} date;

static unsigned days_in(uint64_t year, unsigned month)
{
    static const unsigned days[] = {31, 28, 31, 30, 31, 30, 31, 31, 30, 31, 30, 31};
    int leap = (year % 4 == 0 && year % 100 != 0) || year % 400 == 0;
    return days[month - 1] + (month == 2 && leap);
}

/* The date so many days after 1570-01-01. */
static date date_after(uint64_t days)
{
    date d = {1570 + 400 * (days / DAYS_OF_400_YEARS), 1, 1};
    unsigned rest = (unsigned)(days % DAYS_OF_400_YEARS);
    while (rest >= days_in(d.year, d.month)) {
        rest -= days_in(d.year, d.month);
        d.year += d.month / 12;
        d.month = d.month % 12 + 1;
    }
    d.day += rest;
    return d;
}

/* The time that the values of a mark say. */
static void put_time(char time[TIME_MOST], const uint8_t values[RASPPUCE_VALUES_BYTES])
{
    uint64_t seconds = (uint64_t)read_number(values) << 32 | read_number(values + 4);
    uint64_t fraction = read_number(values + 8);
    uint32_t offset = read_number(values + 13);
    int west = offset >> 31 != 0;
    unsigned minutes = west ? -offset : offset;

    /* Counted from 1570 on, 400 years before 1970: an offset may lead into 1969. */
    uint64_t local = seconds + (uint64_t)DAYS_OF_400_YEARS * DAY_SECONDS;
    local = west ? local - 60 * minutes : local + 60 * minutes;
    date d = date_after(local / DAY_SECONDS);
    unsigned second = (unsigned)(local % DAY_SECONDS);
    unsigned thousandths = (unsigned)(fraction * 1000 / RASPPUCE_FRACTION_END);

    int used = snprintf(time, TIME_MOST, "%04" PRIu64 "-%02u-%02u %02u:%02u:%02u.%03u",
                        d.year, d.month, d.day, second / 3600, second / 60 % 60, second % 60,
                        thousandths);
    if (values[12] == 1)
        snprintf(time + used, (size_t)(TIME_MOST - used), " %c%02u:%02u",
                 west ? '-' : '+', minutes / 60, minutes % 60);
}

uint32_t read_time(const uint8_t body[BODY_BYTES], char time[TIME_MOST])
{
    uint8_t values[RASPPUCE_VALUES_BYTES] = {0};
    uint32_t answer = rasppuce_read_body(body, BODY_BYTES, values, sizeof values);
    if (answer == RASPPUCE_OK)
        put_time(time, values);
    return answer;
}
