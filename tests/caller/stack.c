#include "stack.h"

#include <stdio.h>
#include <string.h>
#include <ucontext.h>

#include "tazsmibor_fast.h"

enum { PAINT = 0xC3, SIZE = 65536, ALLOWED = 1280 };

static uint8_t stack[SIZE];
static ucontext_t caller, callee;
static entry *called;
static const struct call *calls;
static size_t count;
static uint8_t result[64];

/* What is left of an entry where nothing is computed: the stack that the calls themselves take. */
static uint64_t nothing(uint64_t width, uint64_t xl, uint64_t xh, uint64_t al, uint64_t ah, uint64_t bl, uint64_t bh, uint8_t *r, size_t n)
{
    (void)xl, (void)xh, (void)al, (void)ah, (void)bl, (void)bh, (void)r, (void)n;
    return width;
}

/* Every call, with the buffer at each alignment in turn. */
static void call_all(void)
{
    for (size_t i = 0; i < count; i++) {
        const uint64_t *e = calls[i].ends;
        called(calls[i].width, e[0], e[1], e[2], e[3], e[4], e[5], result + i % 16, 48);
    }
}

/* The bytes of stack that the calls of an entry touched. */
static size_t depth(entry *f)
{
    size_t untouched = 0;
    memset(stack, PAINT, sizeof stack);
    called = f;
    getcontext(&callee);
    callee.uc_stack.ss_sp = stack;
    callee.uc_stack.ss_size = sizeof stack;
    callee.uc_link = &caller;
    makecontext(&callee, call_all, 0);
    swapcontext(&caller, &callee);
    while (untouched < sizeof stack && stack[untouched] == PAINT)
        untouched++;
    return sizeof stack - untouched;
}

int stack_too_deep(const struct call *given, size_t n)
{
    calls = given;
    count = n;
    size_t own = depth(nothing), plain = depth(tazsmibor_narrow) - own, fast = depth(tazsmibor_narrow_fast) - own;
    printf("caller: bytes of stack: tazsmibor_narrow %zu, tazsmibor_narrow_fast %zu, allowed %d\n", plain, fast, ALLOWED);
    return plain > ALLOWED || fast > ALLOWED || plain == 0 || fast == 0;
}
