/* Calls the C entries as the stage controller does: each answer with the buffer it leaves. Status 1 at any difference. */
#include <inttypes.h>
#include <stdio.h>
#include <string.h>

#include "tazsmibor_fast.h"

/* the requirement's numbers */
_Static_assert(TAZSMIBOR_NARROWED == 0 && TAZSMIBOR_UNKNOWN_WIDTH == 1 && TAZSMIBOR_NOT_FINITE == 2, "0, 1, 2");
_Static_assert(TAZSMIBOR_OUT_OF_ORDER == 3 && TAZSMIBOR_NO_SOLUTION == 11 && TAZSMIBOR_NO_ROOM == 13, "3, 11, 13");

enum { ROOM = 64, FILL = 0xA5 };

static const struct {
    const char *name;
    uint64_t (*call)(uint64_t, uint64_t, uint64_t, uint64_t, uint64_t, uint64_t, uint64_t, uint8_t *, size_t);
} entries[] = {
    { "tazsmibor_narrow", tazsmibor_narrow },
    { "tazsmibor_narrow_fast", tazsmibor_narrow_fast },
    { "tazsmibor_narrow_guarded", tazsmibor_narrow_guarded },
};
enum { ENTRIES = sizeof entries / sizeof entries[0] };

static int failures;
static int calls;

/* One call of each entry on a buffer of `length` bytes filled with FILL. At answer 0 the six ends are expected, else the buffer
 * as it was. */
static void expect(const char *what, uint64_t width, const uint64_t in[6], size_t length, uint64_t answer, const uint64_t ends[6])
{
    uint8_t got[ROOM], want[ROOM];
    memset(want, FILL, sizeof want);
    for (int i = 0; answer == 0 && i < 48; i++)
        want[i] = (uint8_t)(ends[i / 8] >> (8 * (i % 8)));
    for (int e = 0; e < ENTRIES; e++) {
        memset(got, FILL, sizeof got);
        uint64_t r = entries[e].call(width, in[0], in[1], in[2], in[3], in[4], in[5], got, length);
        calls++;
        if (r == answer && memcmp(got, want, sizeof got) == 0)
            continue;
        failures++;
        printf("%s, %s: answer %" PRIu64 ", expected %" PRIu64 "; buffer", entries[e].name, what, r, answer);
        for (int i = 0; i < ROOM; i++)
            printf(" %02X", got[i]);
        printf("\n");
    }
}

#define LOWEST 0xFFEFFFFFFFFFFFFF
#define LARGEST 0x7FEFFFFFFFFFFFFF
#define ONE 0x3FF0000000000000
#define TWO 0x4000000000000000

static const uint64_t none[6]; /* the ends where none are expected */

/* width 32: x and a from 1 to 2, b from 1 to 4 */
static const uint64_t small32[6] = { 0x3F800000, 0x40000000, 0x3F800000, 0x40000000, 0x3F800000, 0x40800000 };

static void answered(void)
{
    const uint64_t ones[6] = { LOWEST, LARGEST, ONE, ONE, ONE, ONE };
    const uint64_t ones_out[6] = { 0xBC90000000000000, 0x3CA0000000000000, ONE, ONE, ONE, ONE };
    expect("a = b = 1", 64, ones, 48, 0, ones_out);
    expect("later bytes are kept", 64, ones, ROOM, 0, ones_out);
    expect("a byte short", 64, ones, 47, 13, none);
    expect("no bytes", 64, ones, 0, 13, none);

    const uint64_t ones32[6] = { 0xFF7FFFFF, 0x7F7FFFFF, 0x3F800000, 0x3F800000, 0x3F800000, 0x3F800000 };
    const uint64_t ones32_out[6] = { 0xB3000000, 0x33800000, 0x3F800000, 0x3F800000, 0x3F800000, 0x3F800000 };
    expect("a = b = 1, width 32", 32, ones32, 48, 0, ones32_out);
    expect("a byte short, width 32", 32, ones32, 47, 13, none);

    const uint64_t small32_out[6] = { 0x3F800000, 0x40000000, 0x3F800000, 0x40000000, 0x40000000, 0x40800000 };
    expect("b alone narrowed, width 32", 32, small32, ROOM, 0, small32_out);

    const uint64_t gap[6] = { LOWEST, LARGEST, TWO, 0x4000000000000001, ONE, ONE };
    const uint64_t gap_out[6] = { 0xBFF0000000000002, 0xBFEFFFFFFFFFFFFF, TWO, 0x4000000000000001, ONE, ONE };
    expect("two operands, a gap between", 64, gap, 48, 0, gap_out);

    const uint64_t home[6] = { 0xC630000000000000, 0xC330000000000000, ONE, 0x4630000000000000, 0x3FE0000000000000, 0x3FF8000000000000 };
    const uint64_t home_out[6] = { 0xC33FFFFFFFFFFFFF, 0xC330000000000000, 0x4330000000000001, 0x4340000000000000, ONE, ONE };
    expect("all three narrowed", 64, home, ROOM, 0, home_out);

    const uint64_t zero[6] = { 0x8000000000000000, 0, 0, 0, 0x8000000000000000, ONE };
    const uint64_t zeros[6] = { 0 };
    expect("zero with its sign clear", 64, zero, 48, 0, zeros);
}

static void refused(void)
{
    const uint64_t even[6] = { 0x4340000000000000, 0x4350000000000000, 0xC350000000000000, 0xC340000000000000, ONE, ONE };
    expect("every sum is even", 64, even, ROOM, 11, none);
    expect("11 before 13", 64, even, 0, 11, none);

    const uint64_t crossed[6] = { TWO, ONE, TWO, ONE, TWO, ONE };
    expect("low above high", 64, crossed, 48, 3, none);
    expect("3 before 13", 64, crossed, 0, 3, none);
    expect("width 33", 33, crossed, 48, 1, none);
    expect("1 before 3 and 13", 0, crossed, 0, 1, none);
    const uint64_t infinite[6] = { ONE, 0x7FF0000000000000, ONE, TWO, ONE, TWO };
    expect("1 before 2 and 13", 0, infinite, 0, 1, none);

    /* each end made an infinity, a NaN, or longer than the width; each interval with its ends exchanged */
    for (int i = 0; i < 6; i++) {
        uint64_t bad[6];
        memcpy(bad, crossed, sizeof bad);
        bad[i] = 0x7FF0000000000000;
        expect("infinity, and out of order", 64, bad, ROOM, 2, none);
        bad[i] = 0xFFF0000000000001;
        expect("NaN, and no bytes", 64, bad, 0, 2, none);
        memcpy(bad, small32, sizeof bad);
        bad[i] |= 0x100000000;
        expect("bits beyond width 32", 32, bad, ROOM, 2, none);
        memcpy(bad, small32, sizeof bad);
        bad[i] = small32[i ^ 1];
        bad[i ^ 1] = small32[i];
        expect("ends exchanged, width 32", 32, bad, ROOM, 3, none);
    }
}

int main(void)
{
    answered();
    refused();
    printf("entry.c: %d calls, %d not as expected\n", calls, failures);
    return failures != 0;
}
