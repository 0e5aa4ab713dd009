/* Narrowing of one sum x + a = b on binary floating point (IEEE 754, width 32 or 64, round to nearest, ties to even).
 * Link with libtazsmibor.a, which `tools/build tazsmibor` builds: code for x86-64 Linux. tazsmibor_fast.h has a faster entry that
 * asks more of its caller. */
#ifndef TAZSMIBOR_H
#define TAZSMIBOR_H

#include <stddef.h>
#include <stdint.h>

#ifdef __cplusplus
extern "C" {
#endif

/* What an entry answers: 0, or the number of a refusal. They are tested in this order; the first that applies is the answer. */
enum {
    TAZSMIBOR_NARROWED = 0,
    TAZSMIBOR_UNKNOWN_WIDTH = 1, /* width is neither 32 nor 64 */
    TAZSMIBOR_NOT_FINITE = 2,    /* an end is no finite number of the width: an infinity, a NaN, or bits beyond width 32 */
    TAZSMIBOR_OUT_OF_ORDER = 3,  /* a low end lies above its high end, by place (0 and -0 are equal) */
    TAZSMIBOR_NO_SOLUTION = 11,  /* no x, a and b of the intervals have x + a = b */
    TAZSMIBOR_NO_ROOM = 13       /* length is below 48 */
};

/* Floats are given by their patterns: the bits of the format as a number, at width 32 in the low half. The place of a pattern
 * is its number without the sign bit, negated if the sign is set; the order of places is the order of the floats' values.
 *
 * Takes three intervals, each by its low and its high end. A solution is a float of each interval, x, a and b, with
 * x + a = b, the sum rounded.
 *
 * Answers 0 and writes six patterns to result[0] .. result[47], 8 bytes each, low byte first: the least and the greatest x
 * that stand in a solution, then those of a, then those of b. Zero is written with its sign clear. Later bytes are kept.
 * Otherwise it answers the number of a refusal and writes nothing.
 *
 * result is the caller's, for length bytes, at any alignment; nothing else may read or write them during the call. With length
 * 0 no byte is touched, but result must still not be null.
 *
 * The function works in integers alone, so the caller's floating-point environment does not matter and is left as it was. It
 * keeps no state, allocates nothing and takes about 1 KB of stack, less than 1,280 bytes, so any thread and any signal handler may call it. */
uint64_t tazsmibor_narrow(uint64_t width,
                          uint64_t x_low, uint64_t x_high,
                          uint64_t a_low, uint64_t a_high,
                          uint64_t b_low, uint64_t b_high,
                          uint8_t *result, size_t length);

#ifdef __cplusplus
}
#endif

#endif
