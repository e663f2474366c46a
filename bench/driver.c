/* Runs one call after the other as standard input says, so that callgrind counts the instructions of each. A call is run in three rounds, with a dump after
   each that bears the line's label and the round's name: what `twice` has more than `once` is what 8 calls and 8 turns of the loop around them take, and
   what only a first call does is in neither. The loops are in run_line and run_write alone, which the compiler leaves as they are, so that bench/run can tell
   their instructions by their addresses; the call `nothing` takes one instruction, so that it can tell them in another way too.
   usage: driver [CALLS]        CALLS in the last round, else 16
   A line is one of these; numbers are decimal, texts hexadecimal with `-` for the empty one. What the call answered is printed behind the label, and the
   text that it wrote, so that nothing is measured that failed.
     LABEL read CALL TEXT
     LABEL goal CALL NUMBER TEXT
     LABEL write CALL MAKE YEAR WORDS... NAMES      MAKE makes the peer's value of the fields, `-` for the library's own call; `day`, `second` and `instant` for
                                                    those of its calls that make such a stamp themselves */
#include "fields.h"
#include <dlfcn.h>
#include <stdio.h>
#include <stdlib.h>
#include <string.h>
#include <valgrind/callgrind.h>

enum { LONGEST = 4096, ROOM = 256, ROUNDS = 3, NAME = 64 };

struct given {
    size_t length;
    uint8_t bytes[LONGEST + 1];
};

/* The shapes of calls: of a text; of a goal and a text; of a peer's value; of the library's own records. */
typedef uint64_t read_call(const uint8_t *, size_t);
typedef uint64_t goal_call(uint32_t, const uint8_t *, size_t);
typedef const void *make_call(const struct fields *);
typedef size_t peer_call(const void *, uint8_t *, size_t);
typedef size_t stamp_call(uint8_t *, size_t, const uint8_t *, size_t, int32_t, const uint32_t *, size_t);
typedef size_t day_call(uint8_t *, size_t, int32_t, uint8_t, uint8_t);
typedef size_t second_call(uint8_t *, size_t, int32_t, uint8_t, uint8_t, uint8_t, uint8_t, uint8_t);
typedef size_t instant_call(uint8_t *, size_t, int32_t, uint8_t, uint8_t, uint8_t, uint8_t, uint8_t, uint32_t, uint8_t);

static const char *label;
static uint8_t buffer[ROOM];
static int turns[ROUNDS] = {8, 8, 16};
static char names[ROUNDS][NAME];

void nothing(void) {}

static void fail(const char *what, const char *word)
{
    fprintf(stderr, "driver: %s: %s: %s\n", label ? label : "", what, word ? word : "");
    exit(1);
}

static const char *word(void)
{
    const char *next = strtok(NULL, " \n");
    if (!next) fail("the line is too short", NULL);
    return next;
}

static long number(void) { return strtol(word(), NULL, 10); }

/* A text, with a 0 behind it for those who need one. */
static void text(struct given *to)
{
    const char *hex = word();
    to->length = strcmp(hex, "-") ? strlen(hex) / 2 : 0;
    if (to->length > LONGEST) fail("the text is too long", hex);
    for (size_t i = 0; i < to->length; i++) {
        unsigned byte;
        sscanf(hex + 2 * i, "%2x", &byte);
        to->bytes[i] = (uint8_t)byte;
    }
    to->bytes[to->length] = 0;
}

static void *call_of(const char *name)
{
    void *found = dlsym(RTLD_DEFAULT, name);
    if (!found) fail("there is no such call", name);
    return found;
}

/* The rounds have the same instructions, but for the turns of the loop. */
#define MEASURE(answer, call)                                                                                                                                  \
    do {                                                                                                                                                       \
        for (int round = 0; round < ROUNDS; round++) {                                                                                                         \
            for (int i = 0; i < turns[round]; i++) (answer) = (call);                                                                                          \
            CALLGRIND_DUMP_STATS_AT(names[round]);                                                                                                             \
        }                                                                                                                                                      \
    } while (0)

static void name_rounds(void)
{
    static const char *const rounds[ROUNDS] = {"warm", "once", "twice"};
    for (int round = 0; round < ROUNDS; round++) snprintf(names[round], NAME, "%s %s", label, rounds[round]);
}

static void fields(struct fields *f)
{
    f->year = (int32_t)number();
    for (int i = 0; i < WORDS; i++) f->words[i] = (uint32_t)number();
}

static void print_written(size_t count)
{
    printf("%s %zu ", label, count);
    for (size_t i = 0; i < count && i < ROOM; i++) printf("%02x", buffer[i]);
    puts("");
}

static __attribute__((noipa)) void run_write(void *call, const char *make)
{
    static struct given lent;
    struct fields f;
    size_t count = 0;
    fields(&f);
    text(&lent);
    f.names = lent.bytes;
    const uint32_t *w = f.words;
    uint8_t month = (uint8_t)w[MONTH], day = (uint8_t)w[DAY], hour = (uint8_t)w[HOUR], minute = (uint8_t)w[MINUTE], second = (uint8_t)w[SECOND];
    if (!strcmp(make, "-")) {
        MEASURE(count, ((stamp_call *)call)(buffer, ROOM, lent.bytes, lent.length, f.year, w, WORDS));
    } else if (!strcmp(make, "day")) {
        MEASURE(count, ((day_call *)call)(buffer, ROOM, f.year, month, day));
    } else if (!strcmp(make, "second")) {
        MEASURE(count, ((second_call *)call)(buffer, ROOM, f.year, month, day, hour, minute, second));
    } else if (!strcmp(make, "instant")) {
        MEASURE(count, ((instant_call *)call)(buffer, ROOM, f.year, month, day, hour, minute, second, w[NANOSECOND], (uint8_t)w[PRECISION]));
    } else {
        const void *value = ((make_call *)call_of(make))(&f);
        MEASURE(count, ((peer_call *)call)(value, buffer, ROOM));
    }
    print_written(count);
}

static __attribute__((noipa)) void run_line(const char *kind, const char *name)
{
    static struct given lent;
    void *call = call_of(name);
    uint64_t answer = 0;
    if (!strcmp(kind, "write")) {
        run_write(call, word());
        return;
    }
    if (!strcmp(kind, "read")) {
        text(&lent);
        MEASURE(answer, ((read_call *)call)(lent.bytes, lent.length));
    } else if (!strcmp(kind, "goal")) {
        uint32_t goal = (uint32_t)number();
        text(&lent);
        MEASURE(answer, ((goal_call *)call)(goal, lent.bytes, lent.length));
    } else {
        fail("no such kind", kind);
    }
    printf("%s %lu\n", label, (unsigned long)(uint32_t)answer);
}

int main(int count, char **words)
{
    static char line[2 * LONGEST + 1024];
    if (count > 1) turns[ROUNDS - 1] = atoi(words[1]);
    while (fgets(line, sizeof line, stdin)) {
        label = strtok(line, " \n");
        if (!label) continue;
        name_rounds();
        const char *kind = word();
        run_line(kind, word());
    }
    return 0;
}
