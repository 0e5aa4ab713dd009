#include "cases.h"

#include <string.h>

/* A fixed sequence of words (splitmix64), so that a run can be repeated. */
static uint64_t word(uint64_t *state)
{
    uint64_t z = (*state += 0x9E3779B97F4A7C15);
    z = (z ^ (z >> 30)) * 0xBF58476D1CE4E5B9;
    z = (z ^ (z >> 27)) * 0x94D049BB133111EB;
    return z ^ (z >> 31);
}

/* A width's fraction bits and its largest finite place. A place is a pattern without its sign, negated where that is set. */
struct format {
    int fraction;
    int64_t largest;
};

static struct format format_of(uint64_t width)
{
    struct format single = { 23, 0x7F7FFFFF }, twice = { 52, 0x7FEFFFFFFFFFFFFF };
    return width == 32 ? single : twice;
}

/* The finite place nearest a number. */
static int64_t held(struct format f, __int128 place)
{
    return place < -f.largest ? -f.largest : place > f.largest ? f.largest : (int64_t)place;
}

static uint64_t pattern(uint64_t width, int64_t place)
{
    return place < 0 ? (uint64_t)-place | (uint64_t)1 << (width - 1) : (uint64_t)place;
}

static int64_t place(uint64_t width, uint64_t pattern)
{
    uint64_t sign = (uint64_t)1 << (width - 1);
    return pattern & sign ? -(int64_t)(pattern & (sign - 1)) : (int64_t)pattern;
}

/* The hardware's sum of two places; an infinity is next to the largest. */
static int64_t sum(uint64_t width, int64_t p, int64_t q)
{
    uint64_t x = pattern(width, p), a = pattern(width, q), b = 0;
    if (width == 32) {
        float s, t;
        memcpy(&s, &x, sizeof s);
        memcpy(&t, &a, sizeof t);
        s += t;
        memcpy(&b, &s, sizeof s);
    } else {
        double s, t;
        memcpy(&s, &x, sizeof s);
        memcpy(&t, &a, sizeof t);
        s += t;
        memcpy(&b, &s, sizeof s);
    }
    return place(width, b);
}

/* A place that is subnormal, near a power of two, near the largest, or anywhere. */
static int64_t middle(struct format f, uint64_t *state)
{
    uint64_t w = word(state);
    int64_t any = (int64_t)((w >> 4) % (uint64_t)f.largest), binade = (int64_t)1 << f.fraction, size;
    switch (word(state) % 4) {
    case 0: size = any % (2 * binade); break;
    case 1: size = any / binade * binade + (int64_t)(w % 9) - 4; break;
    case 2: size = f.largest - any % (3 * binade); break;
    default: size = any; break;
    }
    return held(f, word(state) % 2 ? size : -size);
}

/* A place for the other operand: near its opposite, half an ulp of it, or by itself. */
static int64_t partner(struct format f, int64_t p, uint64_t *state)
{
    int64_t size = p < 0 ? -p : p, tie = size - ((int64_t)(f.fraction + 1) << f.fraction);
    switch (word(state) % 4) {
    case 0: return held(f, (__int128)-p + (int)(word(state) % 33) - 16);
    case 1: return tie < 0 ? (int64_t)(word(state) % 3) : tie >> f.fraction << f.fraction;
    default: return middle(f, state);
    }
}

/* The ends of an interval around a place: most are short, some of any length. */
static void around(uint64_t width, struct format f, __int128 middle, uint64_t *state, uint64_t ends[2])
{
    uint64_t digits = word(state) % 4 ? 3 : word(state) % (width - 2), most = (uint64_t)1 << digits;
    ends[0] = pattern(width, held(f, middle - (__int128)(word(state) % most)));
    ends[1] = pattern(width, held(f, middle + (__int128)(word(state) % most)));
}

struct call call_at(size_t i)
{
    uint64_t state = i;
    struct call c = { i % 2 ? 64 : 32, { 0 } };
    struct format f = format_of(c.width);
    int64_t x = middle(f, &state), a = partner(f, x, &state);
    int off = word(&state) % 2 ? 0 : (int)(word(&state) % 61) - 30;
    around(c.width, f, x, &state, c.ends);
    around(c.width, f, a, &state, c.ends + 2);
    around(c.width, f, (__int128)sum(c.width, x, a) + off, &state, c.ends + 4);
    if (word(&state) % 32 == 0)
        c.ends[word(&state) % 6] = word(&state) >> (word(&state) % 2 ? 0 : 64 - c.width);
    return c;
}

struct answer answer_of(entry *f, const struct call *c)
{
    struct answer r;
    memset(r.bytes, 0xA5, sizeof r.bytes);
    r.number = f(c->width, c->ends[0], c->ends[1], c->ends[2], c->ends[3], c->ends[4], c->ends[5], r.bytes, sizeof r.bytes);
    return r;
}

int same_answer(const struct answer *p, const struct answer *q)
{
    return p->number == q->number && memcmp(p->bytes, q->bytes, sizeof p->bytes) == 0;
}
