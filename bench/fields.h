/* The fields of a stamp as numbers, for the driver and the peers: crates/bench_calls/src/records.rt takes the same words.
   A word of a name is a place and a length in the names that are lent. */
#ifndef FIELDS_H
#define FIELDS_H
#include <stddef.h>
#include <stdint.h>

enum { DATED, MONTH, DAY, TIMED, HOUR, MINUTE, SECOND, NANOSECOND, PRECISION, OFFSET, OFFSET_HOUR, OFFSET_MINUTE, OFFSET_SECOND,
       OFFSET_NANOSECOND, OFFSET_PRECISION, ZONE, ZONE_AT, ZONE_LENGTH, CALENDAR, CALENDAR_AT, CALENDAR_LENGTH, COMPACT, OFFSET_COMPACT, WORDS = 24 };

struct fields {
    int32_t year;
    uint32_t words[WORDS];
    const uint8_t *names;
};
#endif
