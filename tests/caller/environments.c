#define _GNU_SOURCE
#include "environments.h"

#include <fenv.h>
#include <xmmintrin.h>

enum { DAZ = 0x0040, DENORMAL_MASK = 0x0100, FTZ = 0x8000 };

const struct environment environments[] = {
    { "the default", FE_TONEAREST, 0, 0 },
    { "upward", FE_UPWARD, 0, 0 },
    { "downward", FE_DOWNWARD, 0, 0 },
    { "toward zero", FE_TOWARDZERO, 0, 0 },
    { "FTZ", FE_TONEAREST, 0, FTZ },
    { "DAZ", FE_TONEAREST, 0, DAZ },
    { "FTZ and DAZ", FE_TONEAREST, 0, FTZ | DAZ },
    { "upward, FTZ and DAZ", FE_UPWARD, 0, FTZ | DAZ },
    { "overflow unmasked", FE_TONEAREST, FE_OVERFLOW, 0 },
    { "underflow unmasked", FE_TONEAREST, FE_UNDERFLOW, 0 },
    { "inexact unmasked", FE_TONEAREST, FE_INEXACT, 0 },
    { "denormal operands unmasked", FE_TONEAREST, 0, DENORMAL_MASK },
    { "every exception unmasked", FE_TONEAREST, FE_ALL_EXCEPT, DENORMAL_MASK },
    { "every exception unmasked, toward zero", FE_TOWARDZERO, FE_ALL_EXCEPT, DENORMAL_MASK },
};
const int environment_count = sizeof environments / sizeof environments[0];

unsigned int enter(const struct environment *e)
{
    leave();
    fesetround(e->rounding);
    feenableexcept(e->unmasked);
    _mm_setcsr(_mm_getcsr() ^ e->mxcsr);
    return _mm_getcsr();
}

void leave(void)
{
    fesetenv(FE_DFL_ENV);
    _mm_setcsr(DEFAULT_MXCSR);
}
