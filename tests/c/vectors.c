/* Judges the lines of a vector list (docs/VECTORS.md) that concern the exported functions: `X` and `R` the check, `C` the
   recogniser. It prints each line whose answer differs, with what it got, and last `judged N, M differ`. Lines of other tags, and
   comments, are passed over; a line of these tags that cannot be read ends the run.

   usage: vectors < list */
#include "host.h"
#include "stamp.h"

enum { MOST = 4096 };

static char line[MOST];

/* The next line, without its end; 0 if there is none. */
static int read_line(void)
{
    size_t length = 0;
    int byte = getchar();
    if (byte < 0)
        return 0;
    for (; byte >= 0 && byte != '\n'; byte = getchar()) {
        if (length == MOST - 1) {
            printf("vectors: a line of over %d bytes\n", MOST - 1);
            exit(1);
        }
        line[length++] = (char)byte;
    }
    line[length] = 0;
    return 1;
}

static void unreadable(void)
{
    printf("vectors: cannot be read: %s\n", line);
    exit(1);
}

static uint32_t read_number(const char **at)
{
    char *end;
    unsigned long value = strtoul(*at, &end, 10);
    if (end == *at || (*end != ' ' && *end != 0) || value > 0xffffffff)
        unreadable();
    *at = *end == ' ' ? end + 1 : end;
    return (uint32_t)value;
}

static int hex(int c)
{
    if (c >= '0' && c <= '9')
        return c - '0';
    if (c < 'a' || c > 'f')
        unreadable();
    return c - 'a' + 10;
}

/* Bytes in hex up to the next blank; `-` is the empty text. */
static size_t read_text(const char **at, uint8_t *text)
{
    const char *from = *at;
    size_t length = 0;
    if (*from == '-')
        from++;
    else
        for (; *from != ' '; from += 2)
            text[length++] = (uint8_t)(hex(from[0]) * 16 + hex(from[1]));
    if (*from != ' ')
        unreadable();
    *at = from + 1;
    return length;
}

int main(void)
{
    static uint8_t text[MOST];
    unsigned long judged = 0, differ = 0;
    while (read_line()) {
        const char *at = line + 2;
        int of_check = line[0] == 'X' || line[0] == 'R';
        uint32_t goal, got;
        size_t length;
        if ((!of_check && line[0] != 'C') || line[1] != ' ')
            continue;
        goal = of_check ? read_number(&at) : 0;
        length = read_text(&at, text);
        got = of_check ? stamp_check(goal, text, length) : stamp_recognise(text, length);
        judged++;
        if (got != read_number(&at)) {
            differ++;
            printf("%s got %u\n", line, got);
        }
    }
    printf("judged %lu, %lu differ\n", judged, differ);
    return differ != 0;
}
