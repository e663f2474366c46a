/* Document 01, "What is read", "What is written" and "Recogniser", as directly as C allows. It shares nothing with the library: a
   text is read from the left, and it is recognised if what was read of it, written again, is the same text. */
#include "host.h"
#include "model.h"
#include "stamp.h"

enum { MOST_DIGITS = 9, LONGEST_NAME = 64 };

/* The place that a text is read at. */
struct cursor {
    const uint8_t *text;
    size_t length, place;
};

struct clock {
    int hour, minute, second, nanosecond;
    int has_second;
    size_t digits; /* of the fraction; 0 if there is none */
};

struct name {
    const uint8_t *bytes;
    size_t length; /* 0 if there is none */
    int critical;
};

/* What a text says. */
struct said {
    int year, month, day;
    int has_time, has_z, has_offset, offset_minus;
    struct clock time, offset;
    struct name zone, calendar;
    int has_unknown_critical, has_clash;
};

/* Reading */

static int next(const struct cursor *c)
{
    return c->place < c->length ? c->text[c->place] : -1;
}

static int take(struct cursor *c, int byte)
{
    if (next(c) != byte)
        return 0;
    c->place++;
    return 1;
}

static int is_digit(int b) { return '0' <= b && b <= '9'; }
static int is_small(int b) { return 'a' <= b && b <= 'z'; }
static int is_letter(int b) { return is_small(b) || ('A' <= b && b <= 'Z'); }

/* A number of exactly so many digits, within its bounds. */
static int number(struct cursor *c, int digits, int least, int most, int *value)
{
    *value = 0;
    for (; digits > 0; digits--) {
        if (!is_digit(next(c)))
            return 0;
        *value = *value * 10 + (next(c) - '0');
        c->place++;
    }
    return least <= *value && *value <= most;
}

static int sign(struct cursor *c, int *minus)
{
    *minus = next(c) == '-';
    return take(c, '-') || take(c, '+');
}

/* YYYY, or a sign and six digits, but not -000000 */
static int year(struct cursor *c, struct said *s)
{
    int minus;
    if (!sign(c, &minus))
        return number(c, 4, 0, 9999, &s->year);
    if (!number(c, 6, minus, 999999, &s->year))
        return 0;
    if (minus)
        s->year = -s->year;
    return 1;
}

static int year_month(struct cursor *c, struct said *s)
{
    return year(c, s) && take(c, '-') && number(c, 2, 1, 12, &s->month);
}

static int day_after_dash(struct cursor *c, struct said *s)
{
    return take(c, '-') && number(c, 2, 1, 31, &s->day);
}

/* One digit or more, of which nine count. */
static int fraction(struct cursor *c, struct clock *t)
{
    int weight = 100000000;
    for (; is_digit(next(c)); c->place++, t->digits++, weight /= 10)
        t->nanosecond += (next(c) - '0') * weight;
    return t->digits > 0;
}

static int clock(struct cursor *c, int last_second, struct clock *t)
{
    if (!number(c, 2, 0, 23, &t->hour) || !take(c, ':') || !number(c, 2, 0, 59, &t->minute))
        return 0;
    if (!take(c, ':'))
        return 1;
    t->has_second = 1;
    if (!number(c, 2, 0, last_second, &t->second))
        return 0;
    if (t->second == 60)
        t->second = 59;
    return take(c, '.') || take(c, ',') ? fraction(c, t) : 1;
}

/* A time, then `Z` or an offset or neither */
static int time_and_offset(struct cursor *c, struct said *s)
{
    s->has_time = 1;
    if (!clock(c, 60, &s->time))
        return 0;
    s->has_z = take(c, 'Z') || take(c, 'z');
    if (s->has_z || !sign(c, &s->offset_minus))
        return 1;
    s->has_offset = 1;
    return clock(c, 59, &s->offset);
}

/* A part of a zone's name: not empty, and neither `.` nor `..` */
static int zone_part(struct cursor *c)
{
    size_t from = c->place, length;
    int b = next(c);
    if (!is_letter(b) && b != '.' && b != '_')
        return 0;
    for (; is_letter(b) || is_digit(b) || b == '.' || b == '_' || b == '-' || b == '+'; b = next(c))
        c->place++;
    length = c->place - from;
    return !(c->text[from] == '.' && (length == 1 || (length == 2 && c->text[from + 1] == '.')));
}

static int zone_name(struct cursor *c)
{
    int ignored;
    if (sign(c, &ignored))
        return number(c, 2, 0, 23, &ignored) && take(c, ':') && number(c, 2, 0, 59, &ignored);
    do {
        if (!zone_part(c))
            return 0;
    } while (take(c, '/'));
    return 1;
}

static int zone(struct cursor *c, struct said *s)
{
    int critical;
    size_t from;
    if (!take(c, '['))
        return 0;
    critical = take(c, '!');
    from = c->place;
    if (!zone_name(c))
        return 0;
    s->zone.bytes = c->text + from;
    s->zone.length = c->place - from;
    s->zone.critical = critical;
    return take(c, ']');
}

static int key(struct cursor *c)
{
    int b = next(c);
    if (!is_small(b) && b != '_')
        return 0;
    for (; is_small(b) || is_digit(b) || b == '_' || b == '-'; b = next(c))
        c->place++;
    return 1;
}

static int value(struct cursor *c)
{
    do {
        if (!is_letter(next(c)) && !is_digit(next(c)))
            return 0;
        while (is_letter(next(c)) || is_digit(next(c)))
            c->place++;
    } while (take(c, '-'));
    return 1;
}

static int annotation(struct cursor *c, struct said *s)
{
    int critical, is_calendar;
    size_t from;
    if (!take(c, '['))
        return 0;
    critical = take(c, '!');
    from = c->place;
    if (!key(c))
        return 0;
    is_calendar = c->place - from == 4 && memcmp(c->text + from, "u-ca", 4) == 0;
    if (!take(c, '='))
        return 0;
    from = c->place;
    if (!value(c))
        return 0;
    if (!is_calendar) {
        s->has_unknown_critical |= critical;
    } else if (s->calendar.length > 0) {
        s->has_clash |= critical || s->calendar.critical;
    } else {
        s->calendar.bytes = c->text + from;
        s->calendar.length = c->place - from;
        s->calendar.critical = critical;
    }
    return take(c, ']');
}

/* At most one zone, then annotations up to the end */
static int tail(struct cursor *c, struct said *s)
{
    size_t from = c->place;
    if (!zone(c, s)) {
        memset(&s->zone, 0, sizeof s->zone);
        c->place = from;
    }
    while (c->place < c->length)
        if (!annotation(c, s))
            return 0;
    return 1;
}

static int stamp_text(struct cursor *c, struct said *s)
{
    if (!year_month(c, s) || !day_after_dash(c, s))
        return 0;
    if ((take(c, 'T') || take(c, 't') || take(c, ' ')) && !time_and_offset(c, s))
        return 0;
    return tail(c, s);
}

static int time_text(struct cursor *c, struct said *s)
{
    if (!take(c, 'T'))
        take(c, 't');
    return time_and_offset(c, s) && tail(c, s);
}

static int year_month_text(struct cursor *c, struct said *s)
{
    s->day = 1;
    return year_month(c, s) && tail(c, s);
}

static int month_day_text(struct cursor *c, struct said *s)
{
    s->year = 1972;
    if (take(c, '-') && !take(c, '-'))
        return 0;
    return number(c, 2, 1, 12, &s->month) && day_after_dash(c, s) && tail(c, s);
}

/* Refusals */

static int days_in_month(int year, int month)
{
    static const int days[] = { 31, 28, 31, 30, 31, 30, 31, 31, 30, 31, 30, 31 };
    int leap = year % 4 == 0 && (year % 100 != 0 || year % 400 == 0);
    return days[month - 1] + (month == 2 && leap);
}

static int is_iso(const struct name *n)
{
    static const char iso[] = "iso8601";
    size_t i;
    if (n->length != sizeof iso - 1)
        return 0;
    for (i = 0; i < n->length; i++)
        if ((is_letter(n->bytes[i]) ? n->bytes[i] | 32 : n->bytes[i]) != iso[i])
            return 0;
    return 1;
}

/* Refusals 5 to 11 of a text of one kind. A kind without a date leaves the month 0. */
static uint32_t own(const uint8_t *text, size_t length, int (*of_kind)(struct cursor *, struct said *), int iso_only, struct said *s)
{
    struct cursor c = { text, length, 0 };
    memset(s, 0, sizeof *s);
    if (length > STAMP_LONGEST_TEXT)
        return STAMP_TOO_LONG;
    if (!of_kind(&c, s))
        return STAMP_BAD_TEXT;
    if (s->has_unknown_critical)
        return STAMP_UNKNOWN_CRITICAL;
    if (s->time.digits > MOST_DIGITS || s->offset.digits > MOST_DIGITS)
        return STAMP_LONG_FRACTION;
    if (iso_only && s->calendar.length > 0 && !is_iso(&s->calendar))
        return STAMP_OTHER_CALENDAR;
    if (s->has_clash)
        return STAMP_CALENDAR_CLASH;
    if (s->month > 0 && s->day > days_in_month(s->year, s->month))
        return STAMP_BAD_DAY;
    return STAMP_ACCEPTED;
}

static uint32_t unless(uint32_t refusal, int fault, uint32_t then)
{
    return refusal == STAMP_ACCEPTED && fault ? then : refusal;
}

/* Writing: the text of what was read, with its settings taken from there too. A stamp has at most 190 bytes. */
struct page {
    uint8_t bytes[256];
    size_t length;
};

static void put(struct page *p, int byte) { p->bytes[p->length++] = (uint8_t)byte; }

static void put_text(struct page *p, const void *bytes, size_t length)
{
    memcpy(p->bytes + p->length, bytes, length);
    p->length += length;
}

static void put_number(struct page *p, int digits, int value)
{
    if (digits > 1)
        put_number(p, digits - 1, value / 10);
    put(p, '0' + value % 10);
}

static void put_year(struct page *p, int year)
{
    int wide = year < 0 || year > 9999;
    if (wide)
        put(p, year < 0 ? '-' : '+');
    put_number(p, wide ? 6 : 4, year < 0 ? -year : year);
}

static void put_clock(struct page *p, const struct clock *t)
{
    int cut = t->nanosecond;
    size_t i;
    put_number(p, 2, t->hour);
    put(p, ':');
    put_number(p, 2, t->minute);
    if (!t->has_second)
        return;
    put(p, ':');
    put_number(p, 2, t->second);
    if (t->digits == 0)
        return;
    for (i = t->digits; i < MOST_DIGITS; i++)
        cut /= 10;
    put(p, '.');
    put_number(p, (int)t->digits, cut);
}

static void put_name(struct page *p, const struct name *n, const char *before)
{
    if (n->length == 0)
        return;
    put(p, '[');
    if (n->critical)
        put(p, '!');
    put_text(p, before, strlen(before));
    put_text(p, n->bytes, n->length);
    put(p, ']');
}

static void put_stamp(struct page *p, const struct said *s)
{
    put_year(p, s->year);
    put(p, '-');
    put_number(p, 2, s->month);
    put(p, '-');
    put_number(p, 2, s->day);
    if (s->has_time) {
        put(p, 'T');
        put_clock(p, &s->time);
    }
    if (s->has_z)
        put(p, 'Z');
    if (s->has_offset) {
        put(p, s->offset_minus ? '-' : '+');
        put_clock(p, &s->offset);
    }
    put_name(p, &s->zone, "");
    put_name(p, &s->calendar, "u-ca=");
}

static int writes(const struct said *s, const uint8_t *text, size_t length)
{
    struct page p;
    if (s->zone.length > LONGEST_NAME || s->calendar.length > LONGEST_NAME)
        return 0;
    p.length = 0;
    put_stamp(&p, s);
    return p.length == length && memcmp(p.bytes, text, length) == 0;
}

struct answers model(const uint8_t *text, size_t length)
{
    struct answers a;
    struct said stamp, s;
    uint32_t refusal = own(text, length, stamp_text, 0, &stamp), other;
    uint32_t plain = unless(refusal, stamp.has_z, STAMP_FORBIDDEN_Z);

    a.check[STAMP_GOAL_STAMP] = refusal;
    a.check[STAMP_GOAL_PLAIN] = plain;
    a.check[STAMP_GOAL_ZONED] = unless(refusal, stamp.zone.length == 0, STAMP_MISSING_PART);
    a.check[STAMP_GOAL_INSTANT] = unless(refusal, !stamp.has_z && !stamp.has_offset, STAMP_MISSING_PART);

    other = own(text, length, time_text, 0, &s);
    if (other == STAMP_ACCEPTED)
        other = unless(other, s.has_z, STAMP_FORBIDDEN_Z);
    else if (plain == STAMP_ACCEPTED)
        other = unless(plain, !stamp.has_time, STAMP_MISSING_PART);
    a.check[STAMP_GOAL_TIME] = other;

    other = own(text, length, year_month_text, 1, &s);
    a.check[STAMP_GOAL_YEAR_MONTH] = plain == STAMP_ACCEPTED ? plain : other;
    other = own(text, length, month_day_text, 1, &s);
    a.check[STAMP_GOAL_MONTH_DAY] = plain == STAMP_ACCEPTED ? plain : other;

    a.recognise = refusal == STAMP_ACCEPTED && writes(&stamp, text, length);
    return a;
}
