/* Calls of the narrowing: intervals placed where rounding, subnormals and overflow matter, and now and then any word as an end. */
#ifndef CASES_H
#define CASES_H

#include <stddef.h>
#include <stdint.h>

struct call {
    uint64_t width;
    uint64_t ends[6]; /* low and high of x, a, b, as patterns */
};

/* What an entry answers: its number, and the bytes of a buffer that was filled before. */
struct answer {
    uint64_t number;
    uint8_t bytes[56];
};

/* An entry of the library, as its headers declare it. */
typedef uint64_t entry(uint64_t, uint64_t, uint64_t, uint64_t, uint64_t, uint64_t, uint64_t, uint8_t *, size_t);

enum { CALLS = 40000 };

/* The i-th call, for any i below CALLS, both widths in turn. Made in the default floating-point environment. */
struct call call_at(size_t i);

/* One call of an entry on a buffer of 56 bytes, filled before. */
struct answer answer_of(entry *f, const struct call *c);

int same_answer(const struct answer *p, const struct answer *q);

#endif
