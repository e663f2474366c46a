/* The worked examples of document 01 (docs/SCOPE.md) and the inputs of docs/DECISIONS.md that concern reading, each for all seven
   goals and the recogniser. It prints each answer that differs, and last `answers N, M differ`.

   usage: examples [wrong]      `wrong` expects another answer everywhere, so that all have to differ */
#include "host.h"
#include "stamp.h"

enum { GOALS = 7 };

struct example {
    const char *text;
    uint32_t check[GOALS]; /* stamp, plain, zoned, instant, time, year-month, month-day */
    uint32_t recognise;
};

static const struct example examples[] = {
    /* document 01 */
    { "9999-12-31T23:59:59.999Z[!UTC][!u-ca=iso8601]", { 0, 12, 0, 0, 6, 6, 6 }, 1 },
    { "+010000-01-01", { 0, 0, 13, 13, 13, 0, 0 }, 1 },
    { "-000001-12-31", { 0, 0, 13, 13, 13, 0, 0 }, 1 },
    { "10:15:00", { 6, 6, 6, 6, 0, 6, 6 }, 0 },
    { "10:15:00.000", { 6, 6, 6, 6, 0, 6, 6 }, 0 },
    { "1972-05-06[u-ca=iso8601]", { 0, 0, 13, 13, 13, 0, 0 }, 1 },
    { "-P1Y2MT3.000000004S", { 6, 6, 6, 6, 6, 6, 6 }, 0 },
    { "PT0S", { 6, 6, 6, 6, 6, 6, 6 }, 0 },
    { "2023-02-30", { 11, 11, 11, 11, 6, 6, 6 }, 0 },
    { "2023-13-01", { 6, 6, 6, 6, 6, 6, 6 }, 0 },
    { "+000000-01-01", { 0, 0, 13, 13, 13, 0, 0 }, 0 },
    { "", { 6, 6, 6, 6, 6, 6, 6 }, 0 },
    { "2024-05-06[u-ca=iso8601][!u-ca=iso8601]", { 10, 10, 10, 10, 6, 6, 6 }, 0 },
    { "2024-05-06[u-ca=iso8601][u-ca=iso8601]", { 0, 0, 13, 13, 13, 0, 0 }, 0 },
    { "02-29", { 6, 6, 6, 6, 6, 6, 0 }, 0 },
    { "02-30", { 6, 6, 6, 6, 6, 6, 11 }, 0 },
    { "2024-05[u-ca=hebrew]", { 6, 6, 6, 6, 6, 9, 6 }, 0 },
    { "10:15Z", { 6, 6, 6, 6, 12, 6, 6 }, 0 },
    { "2024-05-06T10:15Z", { 0, 12, 13, 0, 6, 6, 6 }, 1 },
    { "2024-05-06", { 0, 0, 13, 13, 13, 0, 0 }, 1 },
    /* document 01, "What is read" */
    { "-000000-01-01", { 6, 6, 6, 6, 6, 6, 6 }, 0 },
    { "2024-05-06t10:15z", { 0, 12, 13, 0, 6, 6, 6 }, 0 },
    { "2024-05-06 10:15:00,5-00:00", { 0, 0, 13, 0, 0, 0, 0 }, 0 },
    { "2024-05-06T10:15:00.5-00:00", { 0, 0, 13, 0, 0, 0, 0 }, 1 },
    { "2024-05-06T10:15+01:02:60", { 6, 6, 6, 6, 6, 6, 6 }, 0 },
    { "2024-05-06T24:00", { 6, 6, 6, 6, 6, 6, 6 }, 0 },
    { "2024-05-06Z", { 6, 6, 6, 6, 6, 6, 6 }, 0 },
    { "2024-05-06[+05:30]", { 0, 0, 0, 13, 13, 0, 0 }, 1 },
    { "2024-05-06[Europe/..]", { 6, 6, 6, 6, 6, 6, 6 }, 0 },
    { "2024-05-06[!x=y]", { 7, 7, 7, 7, 6, 6, 6 }, 0 },
    { "2024-05-06[x=y]", { 0, 0, 13, 13, 13, 0, 0 }, 0 },
    { "T10:15[UTC]", { 6, 6, 6, 6, 0, 6, 6 }, 0 },
    { "2024-05[!x=y]", { 6, 6, 6, 6, 6, 7, 6 }, 0 },
    { "--12-31", { 6, 6, 6, 6, 6, 6, 0 }, 0 },
    { "12-31[u-ca=hebrew][!u-ca=hebrew]", { 6, 6, 6, 6, 6, 6, 9 }, 0 },
    /* docs/DECISIONS.md, by its numbers */
    { /* 1 */ "2024-05-06T10:15", { 0, 0, 13, 13, 0, 0, 0 }, 1 },
    { /* 2 */ "10:15[u-ca=a][!u-ca=a]", { 6, 6, 6, 6, 10, 6, 6 }, 0 },
    { /* 3 */ "2024-05-06T10:15:00+00:00:00.1234567890", { 8, 8, 8, 8, 6, 6, 6 }, 0 },
    { /* 15 */ "10:15:60.5", { 6, 6, 6, 6, 0, 6, 6 }, 0 },
    { /* 15 */ "2024-05-06T10:15:60.5", { 0, 0, 13, 13, 0, 0, 0 }, 0 },
    { /* 19 */ "+002024-05", { 6, 6, 6, 6, 6, 0, 6 }, 0 },
    { /* 19 */ "-000000-05", { 6, 6, 6, 6, 6, 6, 6 }, 0 },
    { /* 22 */ "2024-05[u-ca=ISO8601]", { 6, 6, 6, 6, 6, 0, 6 }, 0 },
    { /* 22 */ "2024-05-06[u-ca=ISO8601]", { 0, 0, 13, 13, 13, 0, 0 }, 1 },
    { /* 23 */ "2024-05[u-ca=iso8601][u-ca=a]", { 6, 6, 6, 6, 6, 0, 6 }, 0 },
    { /* 24 */ "2024-05-06[!a=b][", { 6, 6, 6, 6, 6, 6, 6 }, 0 },
    { /* 28 */ "0000-02-29", { 0, 0, 13, 13, 13, 0, 0 }, 1 },
    { /* 28 */ "-000100-02-29", { 11, 11, 11, 11, 6, 6, 6 }, 0 },
    { /* 30 */ "2024-05-06[\303\240]", { 6, 6, 6, 6, 6, 6, 6 }, 0 },
    { /* 31 */ "2024-05-06[\342\210\22205:30]", { 6, 6, 6, 6, 6, 6, 6 }, 0 },
};

static unsigned answers, differ;
static uint32_t spoil; /* what turns every answer that is due into a wrong one */

static void compare(uint32_t got, uint32_t due, const char *text, const char *question, uint32_t goal)
{
    answers++;
    if (got == (due ^ spoil))
        return;
    differ++;
    if (!spoil)
        printf("%s: %s %u: got %u, due is %u\n", text, question, goal, got, due);
}

static void ask(const char *shown, const void *bytes, size_t length, const uint32_t check[GOALS], uint32_t recognise)
{
    uint32_t goal;
    for (goal = 0; goal < GOALS; goal++)
        compare(stamp_check(goal, bytes, length), check[goal], shown, "goal", goal);
    compare(stamp_check(GOALS, bytes, length), STAMP_NO_SUCH_GOAL, shown, "goal", GOALS);
    compare(stamp_check(0xffffffff, bytes, length), STAMP_NO_SUCH_GOAL, shown, "goal", 0xffffffff);
    compare(stamp_recognise(bytes, length), recognise, shown, "recogniser", 0);
}

/* A start, then the letter `a` so many times, then a bracket. */
static void ask_filled(const char *start, size_t letters, const uint32_t check[GOALS], uint32_t recognise)
{
    static char text[2048];
    size_t before = strlen(start);
    memcpy(text, start, before);
    memset(text + before, 'a', letters);
    text[before + letters] = ']';
    ask(start, text, before + letters + 1, check, recognise);
}

/* Texts that are no strings, or long. */
static void ask_others(void)
{
    static const uint32_t date[GOALS] = { 0, 0, 13, 13, 13, 0, 0 }, zoned[GOALS] = { 0, 0, 0, 13, 13, 0, 0 }, every_part[GOALS] = { 0, 0, 0, 0, 0, 0, 0 };
    static const uint32_t no_text[GOALS] = { 6, 6, 6, 6, 6, 6, 6 }, too_long[GOALS] = { 5, 5, 5, 5, 5, 5, 5 };
    static const char every_part_but_64[] =
        "-999999-12-31T23:59:59.999999999+23:59:59.999999999[!Etc/AAAAAAAAAABBBBBBBBBBCCCCCCCCCCDDDDDDDDDDEEEEEEEEEEFFFFFFFFFF][!u-ca=";
    ask("no text at all", NULL, 0, no_text, 0);
    ask("a date and a zero byte", "2024-05-06", 11, no_text, 0);
    /* docs/DECISIONS.md, 14: a name of 65 bytes is read, and not recognised */
    ask_filled("2024-05-06[", 64, zoned, 1);
    ask_filled("2024-05-06[", 65, zoned, 0);
    ask_filled("2024-05-06[u-ca=", 64, date, 1);
    ask_filled("2024-05-06[u-ca=", 65, date, 0);
    /* 190 bytes and 191 */
    ask_filled(every_part_but_64, 64, every_part, 1);
    ask_filled(every_part_but_64, 65, every_part, 0);
    /* 1,024 bytes and 1,025 */
    ask_filled("2024-05-06[x=", STAMP_LONGEST_TEXT - 14, date, 0);
    ask_filled("2024-05-06[x=", STAMP_LONGEST_TEXT - 13, too_long, 0);
}

int main(int count, char **words)
{
    size_t i;
    if (count > 1 && strcmp(words[1], "wrong") == 0)
        spoil = 16;
    for (i = 0; i < sizeof examples / sizeof *examples; i++)
        ask(examples[i].text, examples[i].text, strlen(examples[i].text), examples[i].check, examples[i].recognise);
    ask_others();
    printf("answers %u, %u differ\n", answers, differ);
    return differ != 0;
}
