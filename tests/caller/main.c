/* The C entries as any caller may have them: in each floating-point environment tazsmibor_narrow and tazsmibor_narrow_guarded
 * answer as in the default one, do not trap, and leave the environment as it was, flags included; on a painted stack they take
 * no more than the header says. Each line also says in how many calls tazsmibor_narrow_fast by itself answered otherwise,
 * trapped or raised a flag: none would mean that the environment was not tried.
 *
 * Usage: caller MXCSR, what MXCSR is expected to be as the program starts, in hexadecimal: 1F80, or 9FC0 if it was linked with
 * -ffast-math. Status 1 at any difference. */
#define _GNU_SOURCE
#include <setjmp.h>
#include <signal.h>
#include <stdio.h>
#include <stdlib.h>
#include <string.h>
#include <xmmintrin.h>

#include "cases.h"
#include "environments.h"
#include "stack.h"
#include "tazsmibor_fast.h"

static struct call calls[CALLS];
static struct answer expected[CALLS]; /* in the default environment */
static sigjmp_buf trap;

static void on_trap(int signal)
{
    (void)signal;
    siglongjmp(trap, 1);
}

/* How many calls of an entry in an environment trapped, answered otherwise than in the default, or left MXCSR changed. */
struct faults {
    int traps, answers, flags;
};

/* Nothing here but the entry computes with floats. */
static struct faults faults_of(entry *f, unsigned int mxcsr)
{
    static struct faults faults;
    static size_t i;
    memset(&faults, 0, sizeof faults);
    for (i = 0; i < CALLS; i++) {
        struct answer r;
        unsigned int after;
        if (sigsetjmp(trap, 1)) {
            faults.traps++;
            continue;
        }
        _mm_setcsr(mxcsr);
        r = answer_of(f, &calls[i]);
        after = _mm_getcsr();
        _mm_setcsr(DEFAULT_MXCSR);
        faults.answers += !same_answer(&r, &expected[i]);
        faults.flags += after != mxcsr;
    }
    return faults;
}

static int any(struct faults f) { return f.traps + f.answers + f.flags != 0; }

/* One environment: 0 if neither safe entry was at fault, and the fast one was, but in the default only by the flags it raises. */
static int try_in(const char *name, unsigned int mxcsr)
{
    struct faults plain = faults_of(tazsmibor_narrow, mxcsr), guarded = faults_of(tazsmibor_narrow_guarded, mxcsr);
    struct faults fast = faults_of(tazsmibor_narrow_fast, mxcsr);
    int tried = mxcsr == DEFAULT_MXCSR ? fast.traps + fast.answers == 0 && fast.flags != 0 : fast.traps + fast.answers != 0;
    printf("caller: %s: %d calls, at fault: %s; unguarded fast: %d traps, %d other answers, %d times flags\n", name, CALLS,
           any(plain) ? "tazsmibor_narrow" : any(guarded) ? "tazsmibor_narrow_guarded" : "none", fast.traps, fast.answers, fast.flags);
    return any(plain) || any(guarded) || !tried;
}

/* What was found to go wrong by a fast entry: patterns at width 64, with the answer and b's low end that are due. */
static int stated(void)
{
    static const struct {
        struct call call;
        uint64_t number, b_low;
    } known[] = {
        { { 64, { 1, 0, 0, 0, 0, 0 } }, 3, 0 },
        { { 64, { 1, 1, 1, 1, 2, 2 } }, 0, 2 },
        { { 64, { 0xFFEFFFFFFFFFFFFF, 0x7FEFFFFFFFFFFFFF, 0x3FF0000000000000, 0x3FF0000000000000, 0x3FF0000000000000, 0x3FF0000000000000 } }, 0, 0x3FF0000000000000 },
        { { 64, { 0x7FEFFFFFFFFFFFFF, 0x7FEFFFFFFFFFFFFF, 0, 0x7FEFFFFFFFFFFFFF, 0xFFEFFFFFFFFFFFFF, 0x7FEFFFFFFFFFFFFF } }, 0, 0x7FEFFFFFFFFFFFFF },
    };
    enum { COUNT = sizeof known / sizeof known[0] };
    int wrong = 0;
    for (int i = 0; i < COUNT; i++) {
        uint64_t b_low;
        calls[i] = known[i].call;
        expected[i] = answer_of(tazsmibor_narrow, &calls[i]);
        memcpy(&b_low, expected[i].bytes + 32, sizeof b_low);
        wrong += expected[i].number != known[i].number || (known[i].number == 0 && b_low != known[i].b_low);
    }
    printf("caller: %d of %d stated calls are not as stated\n", wrong, COUNT);
    return wrong;
}

int main(int argc, char **argv)
{
    const unsigned int start = _mm_getcsr();
    int failures = 0, answered = 0, unsolved = 0;
    if (argc != 2 || strtoul(argv[1], NULL, 16) != start) {
        printf("caller: MXCSR is %04X at the start\n", start);
        return 1;
    }
    signal(SIGFPE, on_trap);
    leave();
    for (size_t i = 0; i < CALLS; i++) {
        calls[i] = call_at(i);
        expected[i] = answer_of(tazsmibor_narrow, &calls[i]);
        answered += expected[i].number == TAZSMIBOR_NARROWED;
        unsolved += expected[i].number == TAZSMIBOR_NO_SOLUTION;
    }
    failures += stated();
    printf("caller: of %d calls %d have a solution, %d have none, the others are refused\n", CALLS, answered, unsolved);
    failures += try_in("as started", start);
    for (int i = 0; i < environment_count; i++) {
        unsigned int mxcsr = enter(&environments[i]);
        failures += try_in(environments[i].name, mxcsr);
        leave();
    }
    failures += stack_too_deep(calls, CALLS);
    printf("caller: %s\n", failures ? "FAILED" : "passed");
    return failures != 0;
}
