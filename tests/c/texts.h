/* Texts for the fuzz harness: the same ones for the same seed, on every machine. */
#ifndef TEXTS_H
#define TEXTS_H

#include <stddef.h>
#include <stdint.h>

enum { MOST_BYTES = 1100 };

struct text {
    uint8_t bytes[MOST_BYTES];
    size_t length;
};

/* The text of that number. It depends on the seed and the number alone. */
void make_text(uint64_t seed, uint64_t number, struct text *t);

#endif
