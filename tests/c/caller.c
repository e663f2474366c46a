/* A caller as README.md shows it. It is compiled as C and as C++ without a warning, and it uses nothing but the header. */
#include "stamp.h"

/* Does this line tell one instant, in the words of this library? */
static int is_event(const uint8_t *line, size_t length)
{
    return stamp_recognise(line, length) == 1 && stamp_check(STAMP_GOAL_INSTANT, line, length) == STAMP_ACCEPTED;
}

int main(void)
{
    static const uint8_t event[] = { '2', '0', '2', '4', '-', '0', '5', '-', '0', '6', 'T', '1', '0', ':', '1', '5', 'Z' };
    return is_event(event, sizeof event) && !is_event(event, sizeof event - 1) && !is_event(NULL, 0) ? 0 : 1;
}
