/* The peer C: strftime and sscanf, with snprintf for what strftime does not know (fractions, offsets, names).
   As the other peers: a reader answers 1 if the whole text was read, a writer the count of bytes. sscanf wants a text that ends in 0: the driver lends such. */
#include "fields.h"
#include <stdio.h>
#include <time.h>

struct c_value {
    struct tm tm;
    long nanosecond, offset_nanosecond;
    int offset_hour, offset_minute, offset_second;
    char sign, zone[65], calendar[65];
};

/* What was read has to be in memory, as for every caller. */
static uint64_t keep(const struct c_value *v, int parts, int due, int end, size_t length)
{
    __asm__ volatile("" ::"r"(v) : "memory");
    return parts == due && (size_t)end == length;
}

uint64_t peer_c_read_day(const uint8_t *text, size_t length)
{
    struct c_value v;
    int end = 0;
    int n = sscanf((const char *)text, "%4d-%2d-%2d%n", &v.tm.tm_year, &v.tm.tm_mon, &v.tm.tm_mday, &end);
    return keep(&v, n, 3, end, length);
}

uint64_t peer_c_read_second(const uint8_t *text, size_t length)
{
    struct c_value v;
    int end = 0;
    int n = sscanf((const char *)text, "%4d-%2d-%2dT%2d:%2d:%2d%n", &v.tm.tm_year, &v.tm.tm_mon, &v.tm.tm_mday, &v.tm.tm_hour, &v.tm.tm_min, &v.tm.tm_sec, &end);
    return keep(&v, n, 6, end, length);
}

uint64_t peer_c_read_second_z(const uint8_t *text, size_t length)
{
    struct c_value v;
    int end = 0;
    int n = sscanf((const char *)text, "%4d-%2d-%2dT%2d:%2d:%2dZ%n", &v.tm.tm_year, &v.tm.tm_mon, &v.tm.tm_mday, &v.tm.tm_hour, &v.tm.tm_min, &v.tm.tm_sec, &end);
    return keep(&v, n, 6, end, length);
}

uint64_t peer_c_read_nine(const uint8_t *text, size_t length)
{
    struct c_value v;
    int end = 0;
    int n = sscanf((const char *)text, "%4d-%2d-%2dT%2d:%2d:%2d.%9ldZ%n", &v.tm.tm_year, &v.tm.tm_mon, &v.tm.tm_mday, &v.tm.tm_hour, &v.tm.tm_min, &v.tm.tm_sec,
                   &v.nanosecond, &end);
    return keep(&v, n, 7, end, length);
}

uint64_t peer_c_read_offset(const uint8_t *text, size_t length)
{
    struct c_value v;
    int end = 0;
    int n = sscanf((const char *)text, "%4d-%2d-%2dT%2d:%2d:%2d%c%2d:%2d%n", &v.tm.tm_year, &v.tm.tm_mon, &v.tm.tm_mday, &v.tm.tm_hour, &v.tm.tm_min, &v.tm.tm_sec,
                   &v.sign, &v.offset_hour, &v.offset_minute, &end);
    return keep(&v, n, 9, end, length);
}

uint64_t peer_c_read_longest(const uint8_t *text, size_t length)
{
    struct c_value v;
    int end = 0;
    int n = sscanf((const char *)text, "%7d-%2d-%2dT%2d:%2d:%2d.%9ld%c%2d:%2d:%2d.%9ld[!%64[^]]][!u-ca=%64[^]]]%n", &v.tm.tm_year, &v.tm.tm_mon, &v.tm.tm_mday,
                   &v.tm.tm_hour, &v.tm.tm_min, &v.tm.tm_sec, &v.nanosecond, &v.sign, &v.offset_hour, &v.offset_minute, &v.offset_second, &v.offset_nanosecond, v.zone,
                   v.calendar, &end);
    return keep(&v, n, 14, end, length);
}

static void copy_name(char *to, const struct fields *f, int at)
{
    snprintf(to, 65, "%.*s", (int)f->words[at + 1], (const char *)f->names + f->words[at]);
}

const void *make_c(const struct fields *f)
{
    static struct c_value made[16];
    static int used;
    struct c_value *v = &made[used++ % 16];
    v->tm.tm_year = f->year - 1900;
    v->tm.tm_mon = (int)f->words[MONTH] - 1;
    v->tm.tm_mday = (int)f->words[DAY];
    v->tm.tm_hour = (int)f->words[HOUR];
    v->tm.tm_min = (int)f->words[MINUTE];
    v->tm.tm_sec = (int)f->words[SECOND];
    v->nanosecond = f->words[NANOSECOND];
    v->sign = f->words[OFFSET] == 3 ? '-' : '+';
    v->offset_hour = (int)f->words[OFFSET_HOUR];
    v->offset_minute = (int)f->words[OFFSET_MINUTE];
    v->offset_second = (int)f->words[OFFSET_SECOND];
    v->offset_nanosecond = f->words[OFFSET_NANOSECOND];
    copy_name(v->zone, f, ZONE_AT);
    copy_name(v->calendar, f, CALENDAR_AT);
    return v;
}

size_t peer_c_write_day(const struct c_value *v, uint8_t *buffer, size_t room) { return strftime((char *)buffer, room, "%Y-%m-%d", &v->tm); }

size_t peer_c_write_second(const struct c_value *v, uint8_t *buffer, size_t room) { return strftime((char *)buffer, room, "%Y-%m-%dT%H:%M:%S", &v->tm); }

size_t peer_c_write_second_z(const struct c_value *v, uint8_t *buffer, size_t room) { return strftime((char *)buffer, room, "%Y-%m-%dT%H:%M:%SZ", &v->tm); }

size_t peer_c_write_nine(const struct c_value *v, uint8_t *buffer, size_t room)
{
    size_t n = strftime((char *)buffer, room, "%Y-%m-%dT%H:%M:%S", &v->tm);
    return n + (size_t)snprintf((char *)buffer + n, room - n, ".%09ldZ", v->nanosecond);
}

size_t peer_c_write_offset(const struct c_value *v, uint8_t *buffer, size_t room)
{
    size_t n = strftime((char *)buffer, room, "%Y-%m-%dT%H:%M:%S", &v->tm);
    return n + (size_t)snprintf((char *)buffer + n, room - n, "%c%02d:%02d", v->sign, v->offset_hour, v->offset_minute);
}

size_t peer_c_write_longest(const struct c_value *v, uint8_t *buffer, size_t room)
{
    size_t n = strftime((char *)buffer, room, "%Y-%m-%dT%H:%M:%S", &v->tm);
    return n + (size_t)snprintf((char *)buffer + n, room - n, ".%09ld%c%02d:%02d:%02d.%09ld[!%s][!u-ca=%s]", v->nanosecond, v->sign, v->offset_hour, v->offset_minute,
                                v->offset_second, v->offset_nanosecond, v->zone, v->calendar);
}
