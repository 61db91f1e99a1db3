/* Dayunglipo: reads and writes generator descriptions, runs the generators, and tells whether they fill their cells evenly.
 *
 * Of every call:
 * - Nothing is kept: a call uses what it is lent until it returns. It has no memory of its own, so threads may call at once.
 * - A lent buffer is a pointer and a count of its elements (not of bytes). It must be aligned for its element, must be at least as
 *   long as the count says, and must overlap no other buffer of the same call. Of a count of 0 the pointer is never followed.
 * - No argument is trusted: any numbers, also fields that no bytes can express, get a reply.
 * - With a refusal every other number in the reply is 0, false or the empty set, and lent memory is as it was.
 *
 * Refusal numbers; of several the lowest is given, and 0 is accepted:
 *    1  no bytes, or kind not 1 to 4                      every call but value
 *    2  length is not the kind's                          read
 *    3  k, r, w, r*w, m or p out of range                 every call but value
 *    4  L out of range                                    every call; value tests 1 to 32 only
 *    5  nu or a shift out of range                        every call but value
 *    6  a, b or c not below 2^w; a coefficient past a_k   every call but value
 *       or a_r set; a field the kind hasn't got not zero
 *       value: the number is not below 2^L                value
 *    7  t not 1 to k                                      outputs, question, basis
 *    8  l not 1 to L                                      question, basis
 *    9  a start-state bit numbered k or more set          outputs
 *   10  t*l above k                                       basis
 *   11  lent buffer too short                             write, outputs, question, basis, report
 */
#ifndef DAYUNGLIPO_H
#define DAYUNGLIPO_H

#include <stdbool.h>
#include <stddef.h>
#include <stdint.h>

#ifdef __cplusplus
extern "C" {
#endif

#define DAYUNGLIPO_MOST_BITS 480         /* the most state bits, k */
#define DAYUNGLIPO_MOST_OUTPUT 32        /* the most output bits, L */
#define DAYUNGLIPO_COEFFICIENT_BYTES 60
#define DAYUNGLIPO_ROW_WORDS 8           /* words of a set, a row or a start state */
#define DAYUNGLIPO_WORK_WORDS 7696       /* the least work buffer, in words of 64 bits */
#define DAYUNGLIPO_LONGEST_DESCRIPTION 65
#define DAYUNGLIPO_TEXT_BYTES 16480      /* the least text buffer of a listing */

/* The kind and the body's fields of a description; those of other kinds are zero. */
typedef struct {
    uint8_t kind;    /* 1 Tausworthe, 2 GFSR, 3 twisted GFSR, 4 Mersenne Twister */
    uint16_t k;      /* kind 1: state bits */
    uint8_t nu;      /* kind 1: steps between outputs */
    uint16_t r;      /* kinds 2 to 4: words of the state */
    uint16_t m;      /* kinds 3 and 4: the nearer of the two words added */
    uint8_t w;       /* kinds 2 to 4: bits of a word */
    uint8_t p;       /* kind 4: bits that the last word lacks */
    uint8_t bits;    /* every kind: L, the bits of an output */
    uint32_t a;      /* kinds 3 and 4: the twist */
    uint8_t u;       /* kind 4: U, the right shift that begins the tempering */
    uint8_t s;       /* kinds 3 and 4: S, the first left shift */
    uint32_t b;      /* kinds 3 and 4: its mask */
    uint8_t t;       /* kinds 3 and 4: T, the second left shift */
    uint32_t c;      /* kinds 3 and 4: its mask */
    uint8_t v;       /* kind 4: V, the right shift that ends the tempering */
    uint8_t coefficients[DAYUNGLIPO_COEFFICIENT_BYTES]; /* kinds 1 and 2: a_1 is worth 128 in the first byte */
} dayunglipo_fields;

/* A start state: bit i is worth 2^(i mod 64) in word i div 64. */
typedef struct {
    uint64_t words[DAYUNGLIPO_ROW_WORDS];
} dayunglipo_words;

typedef struct {
    uint32_t refusal;
    dayunglipo_fields fields;
} dayunglipo_reading;

typedef struct {
    uint32_t refusal;
    double value;
} dayunglipo_valued;

/* The reply to a question. A no has the number d of the first bit that is a sum of earlier ones, and the set of bits that always
 * sum to zero, d included; a yes has d = 0 and the empty set. Bit j of output n has the number n*l + j. */
typedef struct {
    uint32_t refusal;
    bool yes;
    size_t d;
    uint64_t set[DAYUNGLIPO_ROW_WORDS];
} dayunglipo_reply;

typedef struct {
    uint32_t refusal;
    size_t words; /* how many words at the front of the work buffer are the rows: 8 for each unit of rank */
} dayunglipo_basis_reply;

typedef struct {
    uint32_t refusal;
    uint32_t resolutions[DAYUNGLIPO_MOST_BITS];  /* l_t at place t - 1; zero past k */
    uint32_t dimensions[DAYUNGLIPO_MOST_OUTPUT]; /* t_l at place l - 1; zero past L */
    uint32_t resolution_sum;                     /* the sum of the gaps min(L, k div t) - l_t */
    uint32_t dimension_sum;                      /* the sum of the gaps k div l - t_l */
    bool me;                                     /* whether resolution_sum is 0 */
} dayunglipo_report_reply;

/* Takes a description apart. Lent: `length` bytes, only read. Refusals 1 to 6. */
dayunglipo_reading dayunglipo_read(const uint8_t *bytes, size_t length);

/* Puts the description of g at the front of `out` and leaves the rest: 65 bytes for kinds 1 and 2, 21 for kind 3, 24 for kind 4.
 * Lent: `room` bytes, at least that many. Gives the refusal, 1, 3 to 6 or 11; a refusal leaves `out` as it was. */
uint32_t dayunglipo_write(dayunglipo_fields g, uint8_t *out, size_t room);

/* Puts the first t outputs from the start state at the front of `out`, each below 2^L, and leaves the rest.
 * Lent: `room` numbers, at least t. Gives the refusal, 1, 3 to 7, 9 or 11; a refusal leaves `out` as it was. */
uint32_t dayunglipo_outputs(dayunglipo_fields g, size_t t, dayunglipo_words state, uint32_t *out, size_t room);

/* The double y / 2^l, exactly. Lent: nothing. Refusals 4 (l is not 1 to 32) and 6 (y is not below 2^l). */
dayunglipo_valued dayunglipo_value(uint64_t y, uint32_t l);

/* Whether each of the 2^(t*l) patterns of the leading l bits of t successive outputs comes from equally many start states.
 * Lent: `room` words, at least DAYUNGLIPO_WORK_WORDS. An accepted call leaves the first DAYUNGLIPO_WORK_WORDS of them zero and the
 * others untouched. Refusals 1, 3 to 8 and 11; a refusal leaves `work` as it was. */
dayunglipo_reply dayunglipo_question(dayunglipo_fields g, size_t t, size_t l, uint64_t *work, size_t room);

/* The refusal that dayunglipo_basis gives for the same numbers. Lent: nothing. */
uint32_t dayunglipo_basis_check(dayunglipo_fields g, size_t t, size_t l, size_t room);

/* Puts the reduced row echelon form of the t*l rows over the k state bits at the front of `work`: rows of 8 words, each led by its
 * lowest-numbered bit, leading bits rising, rows of zeros left out. The reply has the count of words in the rows.
 * Lent: `room` words, at least DAYUNGLIPO_WORK_WORDS. An accepted call leaves zeros behind the rows, as far as
 * DAYUNGLIPO_WORK_WORDS, and the others untouched. Refusals 1, 3 to 8, 10 and 11; a refusal leaves `work` as it was. */
dayunglipo_basis_reply dayunglipo_basis(dayunglipo_fields g, size_t t, size_t l, uint64_t *work, size_t room);

/* The whole report: for each t the largest l with a yes, for each l the largest t, the sums of the gaps, and ME.
 * Lent: `room` words, at least DAYUNGLIPO_WORK_WORDS. An accepted call leaves the first DAYUNGLIPO_WORK_WORDS of them zero and the
 * others untouched. Refusals 1, 3 to 6 and 11; a refusal leaves `work` as it was. */
dayunglipo_report_reply dayunglipo_report(dayunglipo_fields g, uint64_t *work, size_t room);

/* Puts the text of the report of a description at the front of `text`, or the line `refused N`, and leaves the rest; gives the
 * text's length. Lent: `length` bytes, only read; `room` bytes, at least DAYUNGLIPO_TEXT_BYTES. Where the buffer is too short it
 * gives 0 and leaves it as it was. Its work buffer is its own, on the stack. */
size_t dayunglipo_listing(const uint8_t *bytes, size_t length, uint8_t *text, size_t room);

#ifdef __cplusplus
}
#endif

#endif
