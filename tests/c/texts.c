/* Makes texts of the grammar of document 01, with wrong fields among the right ones; mutated copies of those; texts of other
   formats; bytes at random; texts of each length from 0 to 1,100 in turn, and more of those about the longest that is accepted.
   What goes past the most that a text holds is dropped. */
#include "host.h"
#include "texts.h"

/* Chance */

static uint64_t state;

/* splitmix64 */
static uint64_t chance(void)
{
    uint64_t x = state += 0x9e3779b97f4a7c15u;
    x = (x ^ (x >> 30)) * 0xbf58476d1ce4e5b9u;
    x = (x ^ (x >> 27)) * 0x94d049bb133111ebu;
    return x ^ (x >> 31);
}

static uint32_t below(uint32_t n) { return (uint32_t)((chance() >> 32) * n >> 32); }
static uint32_t between(uint32_t least, uint32_t most) { return least + below(most - least + 1); }
static int once_in(uint32_t n) { return below(n) == 0; }
static int pick(const char *bytes) { return bytes[below((uint32_t)strlen(bytes))]; }

/* Putting */

static void put(struct text *t, int byte)
{
    if (t->length < MOST_BYTES)
        t->bytes[t->length++] = (uint8_t)byte;
}

static void put_text(struct text *t, const char *text)
{
    for (; *text; text++)
        put(t, *text);
}

static void put_number(struct text *t, int digits, uint32_t value)
{
    if (digits > 1)
        put_number(t, digits - 1, value / 10);
    put(t, '0' + (int)(value % 10));
}

/* Two digits: one of the bounds, or between them, or now and then one next to them or any other number. */
static void put_field(struct text *t, uint32_t least, uint32_t most)
{
    uint32_t value = between(least, most);
    if (once_in(4))
        value = once_in(2) ? least : most;
    if (once_in(100))
        value = once_in(3) ? below(100) : once_in(2) ? most + 1 : (least + 99) % 100;
    put_number(t, 2, value);
}

/* The grammar of document 01 */

static void put_year(struct text *t)
{
    static const uint32_t years[] = { 0, 1, 4, 100, 200, 400, 1800, 1900, 1970, 1972, 2000, 2023, 2024, 9999 };
    static const uint32_t wide[] = { 0, 1, 4, 100, 200, 400, 9999, 10000, 999999 };
    if (once_in(4)) {
        put(t, pick("+-"));
        put_number(t, 6, once_in(2) ? wide[below(sizeof wide / sizeof *wide)] : below(1000000));
    } else {
        put_number(t, 4, once_in(2) ? years[below(sizeof years / sizeof *years)] : below(10000));
    }
}

static void put_month_day(struct text *t)
{
    if (once_in(4))
        put_text(t, "02");
    else
        put_field(t, 1, 12);
    put(t, '-');
    if (once_in(4))
        put_field(t, 28, 31);
    else
        put_field(t, 1, 28);
}

static void put_date(struct text *t)
{
    put_year(t);
    put(t, '-');
    put_month_day(t);
}

static void put_clock(struct text *t, uint32_t last_second)
{
    uint32_t digits;
    put_field(t, 0, 23);
    put(t, ':');
    put_field(t, 0, 59);
    if (once_in(4))
        return;
    put(t, ':');
    put_field(t, 0, last_second);
    if (once_in(3))
        return;
    put(t, once_in(16) ? ',' : '.');
    digits = once_in(16) ? between(0, 12) : between(1, 9);
    if (once_in(500))
        digits = between(10, 1050);
    for (; digits > 0; digits--)
        put(t, pick("0001234567899"));
}

static void put_time(struct text *t)
{
    put_clock(t, once_in(8) ? 60 : 59);
    if (once_in(3))
        return;
    if (once_in(2)) {
        put(t, once_in(16) ? 'z' : 'Z');
    } else {
        put(t, pick("+-"));
        put_clock(t, 59);
    }
}

/* How long a name is: mostly short, else about the longest that is written, rarely far above it. */
static uint32_t name_length(void)
{
    if (once_in(12))
        return between(60, 68);
    return once_in(300) ? between(69, 1050) : between(1, 12);
}

static void put_zone(struct text *t)
{
    static const char first[] = "ABCabcXYZxyz._", then[] = "ABCabcXYZxyz._0189-+";
    uint32_t length;
    put(t, '[');
    if (once_in(3))
        put(t, '!');
    if (once_in(3)) {
        put(t, pick("+-"));
        put_field(t, 0, 23);
        put(t, ':');
        put_field(t, 0, 59);
    } else if (once_in(3)) {
        static const char *const names[] = { "UTC", "Europe/Paris", "Etc/GMT+5", "a/.b/c", "...", ".", "..", "a/..", "a//b", "/a", "a/", "" };
        put_text(t, names[below(sizeof names / sizeof *names)]);
    } else {
        put(t, pick(first));
        for (length = name_length(); length > 1; length--)
            if (length > 2 && once_in(8)) {
                put(t, '/');
                put(t, pick(first));
                length--;
            } else {
                put(t, pick(then));
            }
    }
    put(t, ']');
}

static void put_value(struct text *t)
{
    uint32_t length = name_length();
    put(t, pick("abcxyzABCXYZ0189"));
    for (; length > 1; length--)
        if (length > 2 && once_in(8)) {
            put(t, '-');
            put(t, pick("abcxyzABCXYZ0189"));
            length--;
        } else {
            put(t, pick("abcxyzABCXYZ0189"));
        }
}

static void put_calendar(struct text *t)
{
    static const char *const names[] = { "iso8601", "ISO8601", "Iso8601", "gregory", "hebrew", "islamic-civil", "iso8602", "iso", "" };
    put(t, '[');
    if (once_in(3))
        put(t, '!');
    put_text(t, "u-ca=");
    if (once_in(3))
        put_value(t);
    else
        put_text(t, names[once_in(3) ? below(sizeof names / sizeof *names) : 0]);
    put(t, ']');
}

static void put_other_annotation(struct text *t)
{
    static const char *const keys[] = { "x", "_", "u-cb", "u-c", "u-caa", "u-", "a1-_", "_u-ca", "U-CA", "1a", "-a", "" };
    put(t, '[');
    if (once_in(24))
        put(t, '!');
    put_text(t, keys[once_in(12) ? below(sizeof keys / sizeof *keys) : below(8)]);
    put(t, '=');
    put_value(t);
    put(t, ']');
}

static void put_tail(struct text *t)
{
    uint32_t more = once_in(8) ? between(1, 4) : 0;
    if (once_in(2))
        put_zone(t);
    if (once_in(2))
        put_calendar(t);
    if (once_in(600))
        more = between(20, 120);
    for (; more > 0; more--)
        if (once_in(3))
            put_calendar(t);
        else
            put_other_annotation(t);
}

static void put_stamp(struct text *t)
{
    put_date(t);
    if (!once_in(4)) {
        put(t, once_in(12) ? pick("t ") : 'T');
        put_time(t);
    }
    put_tail(t);
}

static void put_grammar(struct text *t)
{
    switch (below(10)) {
    case 0:
    case 1:
        if (once_in(3))
            put(t, pick("Tt"));
        put_time(t);
        put_tail(t);
        break;
    case 2:
        put_year(t);
        put(t, '-');
        put_field(t, 1, 12);
        put_tail(t);
        break;
    case 3:
        if (once_in(3))
            put_text(t, "--");
        put_month_day(t);
        put_tail(t);
        break;
    default:
        put_stamp(t);
    }
}

/* A stamp whose parts are all at or about their longest: near 190 bytes. */
static void put_longest(struct text *t)
{
    uint32_t i, zone = between(63, 65), calendar = between(63, 65);
    put_text(t, once_in(2) ? "-999999-12-31T23:59:59.999999999" : "+123456-02-29T00:00:00.000000000");
    put_text(t, once_in(2) ? "+23:59:59.999999999[!" : "-00:00:00.000000001[!");
    for (i = 0; i < zone; i++)
        put(t, pick("abcXYZ_"));
    put_text(t, "][!u-ca=");
    for (i = 0; i < calendar; i++)
        put(t, pick("abcXYZ089"));
    put(t, ']');
}

/* Dates, times and durations of formats that are not read here. */
static void put_stranger(struct text *t)
{
    static const char *const strangers[] = {
        "P1Y2M3W4DT5H6M7.8S", "-PT0S", "20240506", "20240506T101500Z", "2024-05-06T1015", "1015", "T10", "2024-127", "2024-W19-1", "+002024", "2024",
        "0506", "--05-06T10:15", "06/05/2024", "2024-5-6", "10:15 PM", "Mon, 06 May 2024 10:15:00 GMT", "1714990500", "240506101500Z", "UTC",
    };
    put_text(t, strangers[below(sizeof strangers / sizeof *strangers)]);
    put_tail(t);
}

/* Bytes at random: any, or such as the grammar has. */
static const char alphabet[] = "0123456789--++::..,,TtZz [[]]!!==//__u-caiso8601PYMWDHSABCabc";

static void put_random(struct text *t, size_t length)
{
    int any = once_in(2);
    while (t->length < length)
        put(t, any ? (int)below(256) : pick(alphabet));
}

/* A text of exactly that length: bytes at random, or a start and then an annotation that fills the rest. */
static void put_long(struct text *t, size_t length)
{
    if (length < 24 || once_in(3)) {
        put_random(t, length);
        return;
    }
    put_text(t, once_in(2) ? "2024-05-06T10:15" : once_in(2) ? "10:15Z" : once_in(2) ? "2024-05" : "05-06");
    put_text(t, once_in(16) ? "[!x=" : "[x=");
    while (t->length < length - 1)
        put(t, pick("abcxyzABCXYZ0189"));
    put(t, ']');
}

/* Mutations */

static void cut_out(struct text *t, size_t from, size_t count)
{
    memmove(t->bytes + from, t->bytes + from + count, t->length - from - count);
    t->length -= count;
}

static void insert(struct text *t, size_t at, const uint8_t *bytes, size_t count)
{
    if (count > MOST_BYTES - t->length)
        return;
    memmove(t->bytes + at + count, t->bytes + at, t->length - at);
    memcpy(t->bytes + at, bytes, count);
    t->length += count;
}

static void mutate(struct text *t)
{
    size_t length = t->length, at = below((uint32_t)length + 1), count;
    uint8_t part[MOST_BYTES];
    part[0] = (uint8_t)(once_in(4) ? (int)below(256) : pick(alphabet));
    if (at == length) { /* at the end there is nothing but to insert */
        insert(t, at, part, 1);
        return;
    }
    count = 1 + below((uint32_t)(length - at < 16 ? length - at : 16));
    switch (below(8)) {
    case 0: /* flip a bit */
        t->bytes[at] ^= (uint8_t)(1u << below(8));
        break;
    case 1: /* change the case, or `0` to a space */
        t->bytes[at] ^= 32;
        break;
    case 2:
        t->bytes[at] = part[0];
        break;
    case 3:
        insert(t, at, part, 1);
        break;
    case 4:
        cut_out(t, at, 1);
        break;
    case 5: /* the end is lost */
        t->length = at;
        break;
    case 6: /* a part is lost */
        cut_out(t, at, count);
        break;
    default: /* a part stands again, there or elsewhere */
        memcpy(part, t->bytes + at, count);
        insert(t, once_in(2) ? at : below((uint32_t)length + 1), part, count);
    }
}

void make_text(uint64_t seed, uint64_t number, struct text *t)
{
    uint32_t kind, turns;
    state = (seed << 40) + number;
    state = chance();
    t->length = 0;
    kind = below(100);
    if (number % 64 == 0) {
        put_long(t, (size_t)(number / 64 % (MOST_BYTES + 1)));
    } else if (number % 64 == 32) {
        put_long(t, between(1020, 1028));
    } else if (kind < 3) {
        put_random(t, below(48));
    } else if (kind < 4) {
        put_stranger(t);
    } else if (kind < 6) {
        put_longest(t);
    } else {
        put_grammar(t);
        if (kind < 46)
            for (turns = between(1, 3); turns > 0; turns--)
                mutate(t);
    }
}
