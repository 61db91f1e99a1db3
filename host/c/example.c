/* Reads one description from standard input; prints its fields, its first outputs with their values, and the
 * lines of its listing.
 *
 *     gcc -Wall -Wextra -Iinclude host/c/example.c dist/libdayunglipo.a -o example
 */
#include "dayunglipo.h"

#include <inttypes.h>
#include <stdio.h>

enum { SHOWN = 32 };

static size_t state_bits(dayunglipo_fields g)
{
    if (g.kind == 1)
        return g.k;
    return (size_t)g.r * g.w - g.p;
}

static void print_fields(dayunglipo_fields g)
{
    printf("fields kind %u k %u nu %u r %u m %u w %u p %u L %u", g.kind, g.k, g.nu, g.r, g.m, g.w, g.p, g.bits);
    printf(" a %" PRIx32 " U %u S %u b %" PRIx32 " T %u c %" PRIx32 " V %u", g.a, g.u, g.s, g.b, g.t, g.c, g.v);
    printf(" coefficients %02x%02x\n", g.coefficients[0], g.coefficients[1]);
}

/* The first outputs from the start state with all its bits set. */
static uint32_t print_outputs(dayunglipo_fields g)
{
    uint32_t out[SHOWN] = {0};
    dayunglipo_words state = {{0}};
    for (size_t i = 0; i < state_bits(g); i++)
        state.words[i / 64] |= UINT64_C(1) << (i % 64);
    size_t t = state_bits(g) < SHOWN ? state_bits(g) : SHOWN;
    uint32_t refusal = dayunglipo_outputs(g, t, state, out, SHOWN);
    for (size_t n = 0; refusal == 0 && n < t; n++) {
        dayunglipo_valued valued = dayunglipo_value(out[n], g.bits);
        printf("output %zu %" PRIu32 " value %.17g\n", n, out[n], valued.value);
        refusal = valued.refusal;
    }
    return refusal;
}

/* The most that any generator can reach, what this one reaches, and the gap. */
static void print_line(char name, size_t number, size_t best, uint32_t found)
{
    printf("%c %zu %zu %" PRIu32 " %zu\n", name, number, best, found, best - found);
}

static uint32_t print_report(dayunglipo_fields g)
{
    static uint64_t work[DAYUNGLIPO_WORK_WORDS];
    dayunglipo_report_reply report = dayunglipo_report(g, work, DAYUNGLIPO_WORK_WORDS);
    if (report.refusal != 0)
        return report.refusal;
    size_t k = state_bits(g);
    for (size_t t = 1; t <= k; t++)
        print_line('t', t, k / t < g.bits ? k / t : g.bits, report.resolutions[t - 1]);
    for (size_t l = 1; l <= g.bits; l++)
        print_line('l', l, k / l, report.dimensions[l - 1]);
    printf("sum %" PRIu32 " %" PRIu32 "\n", report.resolution_sum, report.dimension_sum);
    printf("ME %s\n", report.me ? "yes" : "no");
    return 0;
}

int main(void)
{
    /* One byte more than the longest description, so that a longer input is seen to be too long. */
    uint8_t bytes[DAYUNGLIPO_LONGEST_DESCRIPTION + 1];
    size_t length = fread(bytes, 1, sizeof bytes, stdin);
    dayunglipo_reading reading = dayunglipo_read(bytes, length);
    uint32_t refusal = reading.refusal;
    if (refusal == 0) {
        print_fields(reading.fields);
        printf("k %zu L %u\n", state_bits(reading.fields), (unsigned)reading.fields.bits);
        refusal = print_outputs(reading.fields);
    }
    if (refusal == 0)
        refusal = print_report(reading.fields);
    if (refusal != 0)
        printf("refused %" PRIu32 "\n", refusal);
    return refusal != 0;
}
