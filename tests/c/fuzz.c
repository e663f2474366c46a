/* Asks the two exported functions about many texts, and holds each answer to a model of document 01 and to what is known of the
   answers without it.

   Every text is lent twice from memory that can be read and not written: once so that it ends at the last byte before a page that
   cannot be read, once so that it starts at the first byte behind one. A read outside the text, or a write, ends the run.

   usage: fuzz SEED COUNT [FAULT]      fuzz faults
   FAULT plants a fault of that name between the library and the harness, which then has to find it; `faults` prints the names. */
#include "host.h"
#include "model.h"
#include "stamp.h"
#include "texts.h"

enum {
    PAGE = 65536, /* a multiple of the page size of every x86-64 and Arm machine */
    ENOUGH = 100000, /* from so many texts on, every length and every answer has to have occurred */
    REFUSALS = 16
};

/* The answers that document 01 allows for each goal, a bit for each number. */
#define BIT(number) (1u << (number))
#define EVERY_TEXT (BIT(0) | BIT(5) | BIT(6) | BIT(7) | BIT(10))
static const uint32_t allowed[GOALS] = {
    EVERY_TEXT | BIT(8) | BIT(11),
    EVERY_TEXT | BIT(8) | BIT(11) | BIT(12),
    EVERY_TEXT | BIT(8) | BIT(11) | BIT(13),
    EVERY_TEXT | BIT(8) | BIT(11) | BIT(13),
    EVERY_TEXT | BIT(8) | BIT(12) | BIT(13),
    EVERY_TEXT | BIT(9),
    EVERY_TEXT | BIT(9) | BIT(11),
};

/* What is being asked, for the report of a fault. */
static uint64_t seed, number;
static struct text now;

static uint64_t questions, recognised, recognised_longest;
static uint64_t answered[GOALS][REFUSALS];
static uint8_t had_length[MOST_BYTES + 1];

static void fail(const char *what)
{
    size_t i;
    printf("fuzz: seed %llu, text %llu: %s: ", (unsigned long long)seed, (unsigned long long)number, what);
    for (i = 0; i < now.length; i++)
        printf("%02x", now.bytes[i]);
    printf("%s\n", now.length == 0 ? "-" : "");
    exit(1);
}

static void demand(int held, const char *what)
{
    if (!held)
        fail(what);
}

static void trapped(int number_of_signal)
{
    (void)number_of_signal;
    fail("memory that is not to be touched was touched");
}

/* The memory that texts are lent from: one page of it seen twice, for the harness to write and for the library to read. */
static uint8_t *ink;
static const uint8_t *paper;

static uint8_t *map(void *at, size_t length, int access, int flags, int file)
{
    void *memory = mmap(at, length, access, flags, file, 0);
    if (memory == MAP_FAILED) {
        printf("fuzz: there is no memory to lend texts from\n");
        exit(2);
    }
    return memory;
}

static void make_paper(void)
{
    int file = memfd_create("paper", 0);
    uint8_t *closed = map(NULL, 3 * PAGE, PROT_NONE, MAP_PRIVATE | MAP_ANONYMOUS, -1);
    if (ftruncate(file, PAGE) != 0) {
        printf("fuzz: there is no file to lend texts from\n");
        exit(2);
    }
    ink = map(NULL, PAGE, PROT_READ | PROT_WRITE, MAP_SHARED, file);
    paper = map(closed + PAGE, PAGE, PROT_READ, MAP_SHARED | MAP_FIXED, file);
    signal(SIGSEGV, trapped);
    signal(SIGBUS, trapped);
}

static const uint8_t *lend_at_start(const struct text *t)
{
    memcpy(ink, t->bytes, t->length);
    return paper;
}

static const uint8_t *lend_at_end(const struct text *t)
{
    memcpy(ink + PAGE - t->length, t->bytes, t->length);
    return paper + PAGE - t->length;
}

/* The faults that can be planted. */
enum fault {
    READS_PAST, READS_BEFORE, WRITES, BY_ADDRESS, CLASH_ACCEPTED, DAY_IN_GRAMMAR, LONG_CUT, ANY_GOAL, READ_IS_RECOGNISED, LONGEST_UNKNOWN, NONE
};
static const char *const faults[NONE] = {
    "reads-past", "reads-before", "writes", "by-address", "clash-accepted", "day-in-grammar", "long-cut", "any-goal", "read-is-recognised", "longest-unknown",
};
static enum fault planted = NONE;

static uint32_t check(uint32_t goal, const uint8_t *text, size_t length)
{
    volatile uint8_t *bytes = (volatile uint8_t *)text;
    uint32_t answer = stamp_check(goal, text, length);
    questions++;
    if (planted == READS_PAST && length > 0)
        (void)bytes[length];
    if (planted == READS_BEFORE && length > 0)
        (void)bytes[-1];
    if (planted == WRITES && length > 0)
        bytes[0] = bytes[0];
    if (planted == BY_ADDRESS && answer == STAMP_MISSING_PART && (size_t)text % 16 == 0)
        answer = STAMP_BAD_TEXT;
    if (planted == CLASH_ACCEPTED && answer == STAMP_CALENDAR_CLASH)
        answer = STAMP_ACCEPTED;
    if (planted == DAY_IN_GRAMMAR && answer == STAMP_BAD_DAY)
        answer = STAMP_BAD_TEXT;
    if (planted == LONG_CUT && answer == STAMP_TOO_LONG)
        answer = stamp_check(goal, text, STAMP_LONGEST_TEXT);
    if (planted == ANY_GOAL && answer == STAMP_NO_SUCH_GOAL)
        answer = stamp_check(STAMP_GOAL_MONTH_DAY, text, length);
    return answer;
}

static uint32_t recognise(const uint8_t *text, size_t length)
{
    uint32_t answer = stamp_recognise(text, length);
    questions++;
    if (planted == READ_IS_RECOGNISED && length <= STAMP_LONGEST_STAMP)
        answer = stamp_check(STAMP_GOAL_STAMP, text, length) == STAMP_ACCEPTED;
    if (planted == LONGEST_UNKNOWN && length == STAMP_LONGEST_STAMP)
        answer = 0;
    return answer;
}

/* A goal's number that there is not. */
static uint32_t no_goal(void)
{
    static const uint32_t numbers[] = { GOALS, 8, 255, 256, 0x7fffffff, 0x80000000, 0xffffffff };
    return numbers[number % (sizeof numbers / sizeof *numbers)];
}

static struct answers ask(const uint8_t *text, size_t length)
{
    struct answers a;
    uint32_t goal;
    for (goal = 0; goal < GOALS; goal++)
        a.check[goal] = check(goal, text, length);
    a.recognise = recognise(text, length);
    demand(check(no_goal(), text, length) == STAMP_NO_SUCH_GOAL, "a goal above 6 is not 15");
    return a;
}

static int alike(const struct answers *a, const struct answers *b)
{
    return memcmp(a->check, b->check, sizeof a->check) == 0 && a->recognise == b->recognise;
}

/* What holds between the answers to one text. */
static void hold_together(const struct answers *a)
{
    uint32_t goal, stamp = a->check[STAMP_GOAL_STAMP], plain = a->check[STAMP_GOAL_PLAIN];
    for (goal = 0; goal < GOALS; goal++) {
        demand(a->check[goal] < REFUSALS && (allowed[goal] & BIT(a->check[goal])) != 0, "an answer that the goal does not have");
        demand((now.length > STAMP_LONGEST_TEXT) == (a->check[goal] == STAMP_TOO_LONG), "5 exactly over 1,024 bytes");
    }
    demand(a->recognise <= 1, "the recogniser answers neither 0 nor 1");
    demand(!a->recognise || (stamp == STAMP_ACCEPTED && now.length <= STAMP_LONGEST_STAMP), "recognised, but refused or over 190 bytes");
    for (goal = STAMP_GOAL_PLAIN; goal <= STAMP_GOAL_INSTANT; goal++)
        demand(a->check[goal] == stamp || (stamp == STAMP_ACCEPTED && a->check[goal] >= STAMP_FORBIDDEN_Z), "another number than the stamp's");
    for (goal = STAMP_GOAL_TIME; goal < GOALS; goal++)
        if (plain == STAMP_ACCEPTED)
            demand(a->check[goal] == STAMP_ACCEPTED || (goal == STAMP_GOAL_TIME && a->check[goal] == STAMP_MISSING_PART), "plain accepts, and a fallback does not");
        else if (stamp != STAMP_BAD_TEXT && stamp != STAMP_TOO_LONG)
            demand(a->check[goal] == STAMP_BAD_TEXT, "a dated text that plain refuses is not 6");
}

/* What a byte outside the grammar does. */
static void hold_bytes(const struct answers *a)
{
    size_t i;
    for (i = 0; i < now.length; i++)
        if (now.bytes[i] < ' ' || now.bytes[i] > '~')
            break;
    if (i < now.length && now.length <= STAMP_LONGEST_TEXT)
        for (i = 0; i < GOALS; i++)
            demand(a->check[i] == STAMP_BAD_TEXT && a->recognise == 0, "a byte outside the grammar is not 6");
}

/* A changed copy is lent, and asked about for one goal. */
static uint32_t check_changed(uint32_t goal, const struct text *changed)
{
    return check(goal, lend_at_end(changed), changed->length);
}

/* An accepted text with a zero byte behind it, or without its last bracket, is refused. */
static void hold_ends(const struct answers *a)
{
    struct text changed;
    uint32_t goal;
    for (goal = 0; goal < GOALS && a->check[goal] != STAMP_ACCEPTED; goal++)
        continue;
    if (goal == GOALS)
        return;
    changed = now;
    changed.bytes[changed.length++] = 0;
    demand(check_changed(goal, &changed) == (changed.length > STAMP_LONGEST_TEXT ? STAMP_TOO_LONG : STAMP_BAD_TEXT), "a zero byte behind an accepted text");
    if (now.bytes[now.length - 1] != ']')
        return;
    changed.length = now.length - 1;
    demand(check_changed(goal, &changed) == STAMP_BAD_TEXT, "an accepted text without its last bracket");
}

/* The place of a byte after the digits and colons from a place on; the length if it is not there. */
static size_t place_behind_digits(size_t from, int byte)
{
    while (from < now.length && ((now.bytes[from] >= '0' && now.bytes[from] <= '9') || now.bytes[from] == ':'))
        from++;
    return from < now.length && now.bytes[from] == byte ? from : now.length;
}

/* A recognised text with another byte at that place is accepted, but no longer recognised. */
static void hold_changed(size_t place, int byte, const char *what)
{
    struct text changed;
    if (place >= now.length)
        return;
    changed = now;
    changed.bytes[place] = (uint8_t)byte;
    demand(check_changed(STAMP_GOAL_STAMP, &changed) == STAMP_ACCEPTED, what);
    demand(recognise(lend_at_end(&changed), changed.length) == 0, what);
}

/* The forms that are read and never written. */
static void hold_forms(const struct answers *a)
{
    size_t date = now.length > 0 && (now.bytes[0] == '+' || now.bytes[0] == '-') ? 13 : 10, point;
    if (!a->recognise || now.length <= date || now.bytes[date] != 'T')
        return;
    hold_changed(date, 't', "a small t");
    hold_changed(date, ' ', "a space for T");
    point = place_behind_digits(date + 1, '.');
    hold_changed(point, ',', "a comma");
    hold_changed(place_behind_digits(point < now.length ? point + 1 : date + 1, 'Z'), 'z', "a small z");
}

static void count(const struct answers *a)
{
    uint32_t goal;
    for (goal = 0; goal < GOALS; goal++)
        answered[goal][a->check[goal]]++;
    recognised += a->recognise;
    recognised_longest += a->recognise && now.length == STAMP_LONGEST_STAMP;
    had_length[now.length] = 1;
}

static void judge(void)
{
    struct answers here = ask(lend_at_end(&now), now.length), there = ask(lend_at_start(&now), now.length), due;
    demand(alike(&here, &there), "another answer at another place");
    hold_together(&here);
    hold_bytes(&here);
    due = model(now.bytes, now.length);
    demand(alike(&here, &due), "another answer than the model's");
    hold_ends(&here);
    hold_forms(&here);
    count(&here);
}

/* Enough texts are worth nothing if they are all alike. */
static void hold_variety(void)
{
    uint32_t goal, refusal;
    size_t length;
    now.length = 0;
    for (length = 0; length <= MOST_BYTES; length++)
        demand(had_length[length], "some length did not occur");
    for (goal = 0; goal < GOALS; goal++)
        for (refusal = 0; refusal < REFUSALS; refusal++)
            demand(answered[goal][refusal] > 0 || (allowed[goal] & BIT(refusal)) == 0, "some answer did not occur");
    demand(recognised_longest > 0, "no recognised text of 190 bytes occurred");
}

static void print_faults(void)
{
    int fault;
    for (fault = 0; fault < NONE; fault++)
        printf("%s\n", faults[fault]);
}

static enum fault fault_of(const char *name)
{
    int fault;
    for (fault = 0; fault < NONE; fault++)
        if (strcmp(faults[fault], name) == 0)
            return (enum fault)fault;
    printf("fuzz: there is no fault %s\n", name);
    exit(2);
}

static void run(uint64_t texts)
{
    make_paper();
    for (number = 0; number < texts; number++) {
        make_text(seed, number, &now);
        judge();
    }
    if (texts >= ENOUGH)
        hold_variety();
}

static void print_sums(uint64_t texts)
{
    uint32_t goal;
    printf("fuzz: seed %llu, %llu texts, %llu questions, 0 wrong; recognised %llu, accepted for goals 0 to 6", (unsigned long long)seed,
        (unsigned long long)texts, (unsigned long long)questions, (unsigned long long)recognised);
    for (goal = 0; goal < GOALS; goal++)
        printf(" %llu", (unsigned long long)answered[goal][STAMP_ACCEPTED]);
    printf("\n");
}

int main(int count_of_words, char **words)
{
    uint64_t texts;
    if (count_of_words == 2 && strcmp(words[1], "faults") == 0) {
        print_faults();
        return 0;
    }
    if (count_of_words < 3 || count_of_words > 4) {
        printf("usage: fuzz SEED COUNT [FAULT]      fuzz faults\n");
        return 2;
    }
    seed = strtoull(words[1], NULL, 10);
    texts = strtoull(words[2], NULL, 10);
    if (count_of_words == 4)
        planted = fault_of(words[3]);
    run(texts);
    print_sums(texts);
    return 0;
}
