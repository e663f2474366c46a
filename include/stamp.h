/*
 * Time stamps such as 2024-05-06T10:15:00Z[UTC]: two questions about a text, for C and C++. docs/SCOPE.md defines the answers.
 *
 * Link with libstamp.a, which `tools/staticlib stamp` writes to target/staticlib/, for x86-64. The archive needs no other library.
 *
 * A text is a pointer to its bytes and their count. It need not end in a zero byte, and a zero byte in it is a byte like any
 * other. The pointer may be NULL where the length is 0.
 *
 * Both functions answer for every text and every goal number. That the answer is the defined one, and that no byte outside the
 * text is read, is proved. They write to no memory but their own stack, allocate nothing and keep nothing between two calls, so
 * they may be called from several threads at once. The caller has to see to it that the bytes of the text can be read and stay
 * as they are during the call.
 */
#ifndef STAMP_H
#define STAMP_H

#include <stddef.h>
#include <stdint.h>

#ifdef __cplusplus
extern "C" {
#endif

/*
 * Goals: what a text is to be read as. The last three take a text of their own, or else a text of the plain goal.
 */
#define STAMP_GOAL_STAMP      0u /* a stamp: a date; then perhaps a time, and `Z` or an offset; a zone; annotations */
#define STAMP_GOAL_PLAIN      1u /* a stamp without `Z` */
#define STAMP_GOAL_ZONED      2u /* a stamp with a zone */
#define STAMP_GOAL_INSTANT    3u /* a stamp with a time, and `Z` or an offset */
#define STAMP_GOAL_TIME       4u /* a time, without `Z` */
#define STAMP_GOAL_YEAR_MONTH 5u /* a year and a month */
#define STAMP_GOAL_MONTH_DAY  6u /* a month and a day */

/*
 * Refusals. stamp_check answers STAMP_ACCEPTED or one of 5 to 13 and 15. The others are listed so that a number means the same
 * everywhere: 1 to 4 are answers of the writers, and 14 is one of the duration reader, which C does not call.
 */
/* None: the text is accepted. */
#define STAMP_ACCEPTED 0u
/* The buffer is shorter than the exact length. */
#define STAMP_NO_ROOM 1u
/* In any part, shown or hidden, a field is out of its range: a year outside +-999,999, a date not valid in its own year, an hour
   over 23, a minute or second over 59, a nanosecond over 999,999,999, a precision of more than nine digits, or the precision Minute
   in a duration of seconds. */
#define STAMP_BAD_FIELD 2u
/* A zone or calendar name is not of its grammar, has over 64 bytes, or does not lie in the text lent with it. */
#define STAMP_BAD_NAME 3u
/* A stamp has neither date nor time, or a shown offset without time; or a duration has no part to write, is negative and zero, or
   has a fraction on its hours or minutes. */
#define STAMP_BAD_PARTS 4u
/* The text is over 1,024 bytes. */
#define STAMP_TOO_LONG 5u
/* The text is not of the grammar. */
#define STAMP_BAD_TEXT 6u
/* An annotation other than `u-ca` is critical. */
#define STAMP_UNKNOWN_CRITICAL 7u
/* A fraction has more than nine digits. */
#define STAMP_LONG_FRACTION 8u
/* The calendar of a year-month or month-day text is another than iso8601. */
#define STAMP_OTHER_CALENDAR 9u
/* There is a second or later `u-ca`, and it or the first is critical. */
#define STAMP_CALENDAR_CLASH 10u
/* The day is not in its month. */
#define STAMP_BAD_DAY 11u
/* There is a `Z` where the goal forbids it. */
#define STAMP_FORBIDDEN_Z 12u
/* The zone, the time or the offset that the goal needs is missing. */
#define STAMP_MISSING_PART 13u
/* A number of a duration is too large. */
#define STAMP_TOO_LARGE 14u
/* There is no goal of that number. */
#define STAMP_NO_SUCH_GOAL 15u

/* The most bytes of a text that is accepted: stamp_check answers STAMP_TOO_LONG to every longer one. */
#define STAMP_LONGEST_TEXT 1024u

/* The most bytes of a stamp that the library writes: stamp_recognise answers 0 to every longer text. */
#define STAMP_LONGEST_STAMP 190u

/*
 * 1 if the text is exactly what this library writes for some stamp that has a date, separators on, under some settings; else 0.
 * A text that gets a 1 is accepted for STAMP_GOAL_STAMP. The converse does not hold: 2024-05-06t10:15z is read, but never
 * written.
 */
uint32_t stamp_recognise(const uint8_t *text, size_t length);

/*
 * STAMP_ACCEPTED if the text is accepted for the goal, else its refusal. Of several that apply it is the one with the smallest
 * number, but STAMP_NO_SUCH_GOAL comes before all others. The last three goals try a text of their own and then a plain one;
 * where they refuse both, the answer is the refusal of the first.
 */
uint32_t stamp_check(uint32_t goal, const uint8_t *text, size_t length);

#ifdef __cplusplus
}
#endif

#endif
