/* Document 01 (docs/SCOPE.md) a second time, in plain C, for the fuzz harness to compare with. */
#ifndef MODEL_H
#define MODEL_H

#include <stddef.h>
#include <stdint.h>

enum { GOALS = 7 };

/* The answer of stamp_check for each of the seven goals, and that of stamp_recognise. */
struct answers {
    uint32_t check[GOALS];
    uint32_t recognise;
};

struct answers model(const uint8_t *text, size_t length);

#endif
