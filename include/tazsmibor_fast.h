/* The narrowing of tazsmibor.h by the machine's floats: the same answers in less time, in the default floating-point environment.
 * Link with libtazsmibor_fast.a, which `tools/build tazsmibor_fast` builds: code for x86-64 Linux. */
#ifndef TAZSMIBOR_FAST_H
#define TAZSMIBOR_FAST_H

#include "tazsmibor.h"

#ifdef __x86_64__
#include <xmmintrin.h>
#endif

#ifdef __cplusplus
extern "C" {
#endif

/* As tazsmibor_narrow, but it adds and compares by the processor's floats. So it asks that MXCSR of the calling thread is as a
 * new process has it: rounding to nearest, subnormals kept (neither flush-to-zero nor denormals-are-zero), exceptions masked.
 * In any other environment its answers are wrong, or it raises SIGFPE. A program leaves the default by fesetround or
 * feenableexcept, and also where it, or a library it loads, was linked with -ffast-math. It raises exception flags. */
uint64_t tazsmibor_narrow_fast(uint64_t width,
                               uint64_t x_low, uint64_t x_high,
                               uint64_t a_low, uint64_t a_high,
                               uint64_t b_low, uint64_t b_high,
                               uint8_t *result, size_t length);

#ifdef __x86_64__
/* The same in any environment of the caller, which is left as it was, flags included: MXCSR is saved, set to the default and
 * restored. */
static inline uint64_t tazsmibor_narrow_guarded(uint64_t width,
                                                uint64_t x_low, uint64_t x_high,
                                                uint64_t a_low, uint64_t a_high,
                                                uint64_t b_low, uint64_t b_high,
                                                uint8_t *result, size_t length)
{
    const unsigned int environment = _mm_getcsr();
    uint64_t answer;
    _mm_setcsr(0x1F80); /* to nearest, subnormals kept, exceptions masked, no flag raised */
    answer = tazsmibor_narrow_fast(width, x_low, x_high, a_low, a_high, b_low, b_high, result, length);
    _mm_setcsr(environment);
    return answer;
}
#endif

#ifdef __cplusplus
}
#endif

#endif
