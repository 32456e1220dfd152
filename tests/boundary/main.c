/*
 * Calls every function of include/yikescanvas.h: what it gives on the examples of paper 01, every number that it can decline with, lengths that
 * are wrong, zero with a null pointer, or too large to multiply, and that a call that declines leaves its outputs as they were.
 * Prints 'N checks', or a line for each that failed, and then exits with 1.
 */
#include <inttypes.h>
#include <stdint.h>
#include <stdio.h>
#include <string.h>

#include "yikescanvas.h"

#define COUNT(a) (sizeof(a) / sizeof((a)[0]))
#define HUGE_LENGTH (SIZE_MAX / 16)

static unsigned long checks;
static unsigned long failures;

static void check(int holds, int line, const char *what) {
    checks++;
    if (!holds) {
        failures++;
        printf("line %d failed: %s\n", line, what);
    }
}

/* All outputs stand in one block that is filled before each call, so that a stray write beside an output shows too. */
static struct {
    uint64_t before[8];
    uint64_t words[512];
    uint64_t between[8];
    uint64_t second[8];
    uint64_t desk[8];
    uint8_t lowest[YIKES_LOWEST + 8];
    uint8_t bytes[8192];
    uint64_t after[8];
} o, fresh;

static void poison(void) {
    memset(&fresh, 0xa5, sizeof fresh);
    memset(&o, 0xa5, sizeof o);
}

static int untouched(void) {
    return memcmp(&o, &fresh, sizeof o) == 0;
}

/* Whether the outputs hold what is expected and nothing beside them: put the expected words where they belong in the fresh block first. */
static int now_holds(const uint64_t *words, size_t n, const uint64_t *second, size_t m) {
    if (n != 0) memcpy(fresh.words, words, n * sizeof *words);
    if (m != 0) memcpy(fresh.second, second, m * sizeof *second);
    return untouched();
}

/* The same of an opening that names a set, with the lowest bits of its holders at their places. */
static int now_names(const uint64_t *words, size_t n, uint64_t set, const uint8_t *bits) {
    size_t i;
    for (i = 0; i < YIKES_LOWEST; i++) fresh.lowest[i] = set >> i & 1 ? bits[i] : YIKES_NOT_WRONG;
    return now_holds(words, n, &set, 1);
}

/* The same of one that names a single holder, or nobody for 0. */
static int now_opens(const uint64_t *words, size_t n, size_t holder, uint8_t bit) {
    uint8_t bits[YIKES_LOWEST] = {0};
    if (holder != 0) bits[holder - 1] = bit;
    return now_names(words, n, holder == 0 ? 0 : UINT64_C(1) << (holder - 1), bits);
}

static int now_bytes(const void *bytes, size_t n) {
    memcpy(fresh.bytes, bytes, n);
    return untouched();
}

/* A desk's record that is lent is set in both blocks: untouched() then says that it stands there still. */
static uint64_t *lent_desk(uint64_t allowance, uint64_t count) {
    o.desk[YIKES_DESK_ALLOWANCE] = fresh.desk[YIKES_DESK_ALLOWANCE] = allowance;
    o.desk[YIKES_DESK_COUNT] = fresh.desk[YIKES_DESK_COUNT] = count;
    return o.desk;
}

/* What a start leaves. */
static int now_starts(uint64_t allowance) {
    fresh.desk[YIKES_DESK_ALLOWANCE] = allowance;
    fresh.desk[YIKES_DESK_COUNT] = 0;
    return untouched();
}

/* What an opening at a desk leaves: the count, and then as without one. */
static int now_counts(uint64_t count, const uint64_t *words, size_t n, size_t holder, uint8_t bit) {
    fresh.desk[YIKES_DESK_COUNT] = count;
    return now_opens(words, n, holder, bit);
}

#define DECLINES(number, call)                                       \
    do {                                                             \
        poison();                                                    \
        check((call) == (number) && untouched(), __LINE__, #call);   \
    } while (0)

#define GIVES(call, expected)                                        \
    do {                                                             \
        poison();                                                    \
        check((call) == YIKES_OK && (expected), __LINE__, #call);    \
    } while (0)

#define BOOK 3, 2, 3
#define OUT o.words, 2
#define SECOND o.second, 1
#define LOWEST o.lowest, YIKES_LOWEST
#define ABOUT o.words, YIKES_ABOUT
#define PART o.words, 3
#define STEP o.words, 4
#define DESK(allowance, count) lent_desk(allowance, count), YIKES_DESK

/* Parameters that are out of their ranges, each in one number. */
static const struct {
    uint64_t k;
    size_t d, n, t;
} outside[] = {
    {0, 2, 3, 1},  {65, 2, 3, 1}, {UINT64_MAX, 2, 3, 1}, {3, 1, 1, 0},        {3, 7, 3, 1},        {3, 0, 0, 0},       {3, SIZE_MAX, 3, 1},
    {3, 2, 0, 0},  {3, 2, 4, 1},  {3, 4, 16, 1},         {3, 6, 64, 1},       {3, 2, SIZE_MAX, 1}, {3, 2, 3, 3},       {3, 2, 3, SIZE_MAX},
    {0, 0, 0, 0},
};

static void elements(void) {
    const uint64_t x[2] = {0, 1}, y[2] = {1, 1}, wide[2] = {8, 0}, even[2] = {2, 4};
    const uint64_t m1[2] = {7, 7}, m2[2] = {7, 0}, sum[2] = {1, 2}, zero[2] = {0, 0};
    size_t i;

    GIVES(yikes_scale(BOOK, 1, x, 2, x, 2, OUT), now_holds(m1, 2, NULL, 0));
    GIVES(yikes_scale(BOOK, 1, x, 2, y, 2, OUT), now_holds(m2, 2, NULL, 0));
    GIVES(yikes_invert(BOOK, 1, x, 2, OUT), now_holds(m1, 2, NULL, 0));
    GIVES(yikes_invert(BOOK, 1, even, 2, OUT), now_holds(zero, 2, NULL, 0));
    GIVES(yikes_add(BOOK, 1, x, 2, y, 2, OUT), now_holds(sum, 2, NULL, 0));
    GIVES(yikes_add(BOOK, 0, m1, 2, y, 2, OUT), now_holds(zero, 2, NULL, 0));

    for (i = 0; i < COUNT(outside); i++) {
        const uint64_t k = outside[i].k;
        const size_t d = outside[i].d, n = outside[i].n, t = outside[i].t;
        DECLINES(YIKES_PARAMETERS, yikes_add(k, d, n, t, x, 2, y, 2, OUT));
        DECLINES(YIKES_PARAMETERS, yikes_scale(k, d, n, t, x, 2, y, 2, OUT));
        DECLINES(YIKES_PARAMETERS, yikes_invert(k, d, n, t, x, 2, OUT));
        DECLINES(YIKES_PARAMETERS, yikes_add(k, d, n, t, NULL, 0, NULL, 0, NULL, 0));
    }

    DECLINES(YIKES_LENGTH, yikes_add(BOOK, 1, x, 1, y, 2, OUT));
    DECLINES(YIKES_LENGTH, yikes_add(BOOK, 1, x, 2, y, 1, OUT));
    DECLINES(YIKES_LENGTH, yikes_add(BOOK, 1, x, 2, y, 2, o.words, 1));
    DECLINES(YIKES_LENGTH, yikes_add(BOOK, 1, x, 2, y, 2, o.words, 3));
    DECLINES(YIKES_LENGTH, yikes_add(BOOK, 1, NULL, 0, y, 2, OUT));
    DECLINES(YIKES_LENGTH, yikes_add(BOOK, 1, x, 2, NULL, 0, OUT));
    DECLINES(YIKES_LENGTH, yikes_add(BOOK, 1, x, 2, y, 2, NULL, 0));
    DECLINES(YIKES_LENGTH, yikes_add(BOOK, 1, x, HUGE_LENGTH, y, 2, OUT));
    DECLINES(YIKES_LENGTH, yikes_add(BOOK, 1, x, 2, y, 2, o.words, HUGE_LENGTH));
    DECLINES(YIKES_LENGTH, yikes_scale(BOOK, 1, x, 3, y, 2, OUT));
    DECLINES(YIKES_LENGTH, yikes_scale(BOOK, 1, x, 2, NULL, 0, OUT));
    DECLINES(YIKES_LENGTH, yikes_scale(BOOK, 1, x, 2, y, 2, NULL, 0));
    DECLINES(YIKES_LENGTH, yikes_scale(BOOK, 1, x, 2, y, HUGE_LENGTH, OUT));
    DECLINES(YIKES_LENGTH, yikes_invert(BOOK, 1, x, 1, OUT));
    DECLINES(YIKES_LENGTH, yikes_invert(BOOK, 1, NULL, 0, OUT));
    DECLINES(YIKES_LENGTH, yikes_invert(BOOK, 1, x, 2, NULL, 0));
    DECLINES(YIKES_LENGTH, yikes_invert(BOOK, 1, wide, 2, o.words, 3));

    DECLINES(YIKES_WIDE_WORD, yikes_add(BOOK, 1, wide, 2, y, 2, OUT));
    DECLINES(YIKES_WIDE_WORD, yikes_add(BOOK, 1, x, 2, wide, 2, OUT));
    DECLINES(YIKES_WIDE_WORD, yikes_scale(BOOK, 1, wide, 2, y, 2, OUT));
    DECLINES(YIKES_WIDE_WORD, yikes_scale(BOOK, 1, x, 2, wide, 2, OUT));
    DECLINES(YIKES_WIDE_WORD, yikes_invert(BOOK, 1, wide, 2, OUT));
}

static void sharing(void) {
    const uint64_t job[2] = {5, 2}, other[2] = {3, 1}, shares[6] = {0, 3, 4, 4, 7, 5}, wide[6] = {0, 3, 4, 8, 7, 5};
    const uint64_t moved[6] = {0, 3, 4, 4, 3, 5}, two[4] = {0, 3, 3, 5}, constant[6] = {5, 2, 5, 2, 1, 2}, same[6] = {5, 2, 5, 2, 5, 2};
    const uint64_t all[3] = {1, 2, 3}, ends[2] = {1, 3}, m7[2] = {1, 6};
    const uint64_t one_wide[6] = {5, 2, 5, 2, 13, 2}, both_words[6] = {8, UINT64_MAX, 5, 2, 5, 2}, two_wide[6] = {13, 2, 5, 2, 5, 10};
    const uint64_t beside_wrong[6] = {13, 2, 5, 2, 1, 2};
    const uint64_t zeroth[3] = {0, 1, 2}, fourth[3] = {1, 2, 4}, twice[3] = {1, 1, 3}, falling[3] = {2, 1, 3}, far[3] = {1, 2, UINT64_MAX};
    size_t i;

    GIVES(yikes_deal(BOOK, 1, job, 2, other, 2, o.words, 6), now_holds(shares, 6, NULL, 0));
    GIVES(yikes_open(BOOK, 1, all, 3, shares, 6, 0, OUT, SECOND, LOWEST), now_opens(job, 2, 0, 0));
    GIVES(yikes_open(BOOK, 1, ends, 2, two, 4, 0, OUT, SECOND, LOWEST), now_opens(m7, 2, 0, 0));
    GIVES(yikes_open(BOOK, 0, all, 3, constant, 6, 1, OUT, SECOND, LOWEST), now_opens(job, 2, 3, 2));

    for (i = 0; i < COUNT(outside); i++) {
        const uint64_t k = outside[i].k;
        const size_t d = outside[i].d, n = outside[i].n, t = outside[i].t;
        DECLINES(YIKES_PARAMETERS, yikes_deal(k, d, n, t, job, 2, other, 2, o.words, 6));
        DECLINES(YIKES_PARAMETERS, yikes_open(k, d, n, t, all, 3, shares, 6, 0, OUT, SECOND, LOWEST));
        DECLINES(YIKES_PARAMETERS, yikes_open(k, d, n, t, all, 3, shares, 6, 0, OUT, SECOND, o.lowest, 63));
        DECLINES(YIKES_PARAMETERS, yikes_open(k, d, n, t, NULL, 0, NULL, 0, UINT64_MAX, NULL, 0, NULL, 0, NULL, 0));
        DECLINES(YIKES_PARAMETERS, yikes_deal(k, d, n, t, NULL, 0, NULL, 0, NULL, 0));
    }

    DECLINES(YIKES_LENGTH, yikes_deal(BOOK, 1, job, 1, other, 2, o.words, 6));
    DECLINES(YIKES_LENGTH, yikes_deal(BOOK, 1, job, 2, other, 1, o.words, 6));
    DECLINES(YIKES_LENGTH, yikes_deal(BOOK, 1, job, 2, other, 2, o.words, 5));
    DECLINES(YIKES_LENGTH, yikes_deal(BOOK, 1, job, 2, other, 2, o.words, 7));
    DECLINES(YIKES_LENGTH, yikes_deal(BOOK, 1, NULL, 0, other, 2, o.words, 6));
    DECLINES(YIKES_LENGTH, yikes_deal(BOOK, 1, job, 2, NULL, 0, o.words, 6));
    DECLINES(YIKES_LENGTH, yikes_deal(BOOK, 1, job, 2, other, 2, NULL, 0));
    DECLINES(YIKES_LENGTH, yikes_deal(BOOK, 1, job, 2, other, HUGE_LENGTH, o.words, HUGE_LENGTH));
    DECLINES(YIKES_WIDE_WORD, yikes_deal(BOOK, 1, wide + 2, 2, other, 2, o.words, 6));
    DECLINES(YIKES_WIDE_WORD, yikes_deal(BOOK, 1, job, 2, wide + 2, 2, o.words, 6));
    /* with t 0 there are no coefficients, and none is right */
    GIVES(yikes_deal(BOOK, 0, job, 2, NULL, 0, o.words, 6), now_holds(same, 6, NULL, 0));

    DECLINES(YIKES_LENGTH, yikes_open(BOOK, 1, all, 3, shares, 5, 0, OUT, SECOND, LOWEST));
    DECLINES(YIKES_LENGTH, yikes_open(BOOK, 1, all, 3, shares, 4, 0, OUT, SECOND, LOWEST));
    DECLINES(YIKES_LENGTH, yikes_open(BOOK, 1, all, 2, shares, 6, 0, OUT, SECOND, LOWEST));
    DECLINES(YIKES_LENGTH, yikes_open(BOOK, 1, all, 3, shares, 6, 0, o.words, 1, SECOND, LOWEST));
    DECLINES(YIKES_LENGTH, yikes_open(BOOK, 1, all, 3, shares, 6, 0, o.words, 3, SECOND, LOWEST));
    DECLINES(YIKES_LENGTH, yikes_open(BOOK, 1, all, 3, shares, 6, 0, NULL, 0, SECOND, LOWEST));
    DECLINES(YIKES_LENGTH, yikes_open(BOOK, 1, all, 3, shares, 6, 0, OUT, NULL, 0, LOWEST));
    DECLINES(YIKES_LENGTH, yikes_open(BOOK, 1, all, 3, shares, 6, 0, OUT, o.second, 2, LOWEST));
    DECLINES(YIKES_LENGTH, yikes_open(BOOK, 1, zeroth, 3, wide, 6, UINT64_MAX, OUT, o.second, HUGE_LENGTH, LOWEST));
    DECLINES(YIKES_LENGTH, yikes_open(BOOK, 1, zeroth, 3, wide, 6, UINT64_MAX, OUT, SECOND, o.lowest, 63));
    DECLINES(YIKES_LENGTH, yikes_open(BOOK, 1, all, 3, shares, 6, 0, OUT, SECOND, o.lowest, 63));
    DECLINES(YIKES_LENGTH, yikes_open(BOOK, 1, all, 3, shares, 6, 0, OUT, SECOND, o.lowest, 65));
    DECLINES(YIKES_LENGTH, yikes_open(BOOK, 1, all, 3, shares, 6, 0, OUT, SECOND, o.lowest, 0));
    DECLINES(YIKES_LENGTH, yikes_open(BOOK, 1, all, 3, shares, 6, 0, OUT, SECOND, NULL, 0));
    DECLINES(YIKES_LENGTH, yikes_open(BOOK, 1, all, 3, shares, 6, 0, OUT, SECOND, o.lowest, 3));
    DECLINES(YIKES_LENGTH, yikes_open(BOOK, 1, all, 3, shares, 6, 0, OUT, SECOND, o.lowest, HUGE_LENGTH));
    DECLINES(YIKES_LENGTH, yikes_open(BOOK, 1, all, 3, NULL, 0, 0, OUT, SECOND, LOWEST));
    DECLINES(YIKES_LENGTH, yikes_open(BOOK, 1, NULL, 0, shares, 6, 0, OUT, SECOND, LOWEST));
    /* lengths that no object has: holders times d is 0, 2 or 6 modulo 2^64 */
    DECLINES(YIKES_LENGTH, yikes_open(BOOK, 1, all, SIZE_MAX / 2 + 1, shares, 0, 0, OUT, SECOND, LOWEST));
    DECLINES(YIKES_LENGTH, yikes_open(BOOK, 1, all, SIZE_MAX / 2 + 2, shares, 2, 0, OUT, SECOND, LOWEST));
    DECLINES(YIKES_LENGTH, yikes_open(BOOK, 1, all, SIZE_MAX / 2 + 4, shares, 6, 0, OUT, SECOND, LOWEST));
    DECLINES(YIKES_LENGTH, yikes_open(3, 4, 15, 1, all, SIZE_MAX / 4 + 1, shares, 0, 0, o.words, 4, SECOND, LOWEST));
    DECLINES(YIKES_HOLDER, yikes_open(BOOK, 1, zeroth, 3, wide, 6, 0, OUT, SECOND, LOWEST));
    DECLINES(YIKES_HOLDER, yikes_open(BOOK, 1, fourth, 3, shares, 6, 0, OUT, SECOND, LOWEST));
    DECLINES(YIKES_HOLDER, yikes_open(BOOK, 1, twice, 3, shares, 6, 0, OUT, SECOND, LOWEST));
    DECLINES(YIKES_HOLDER, yikes_open(BOOK, 1, falling, 3, shares, 6, 0, OUT, SECOND, LOWEST));
    DECLINES(YIKES_HOLDER, yikes_open(BOOK, 1, far, 3, shares, 6, 0, OUT, SECOND, LOWEST));
    DECLINES(YIKES_TOO_FEW_SHARES, yikes_open(BOOK, 1, all, 3, shares, 6, 1, OUT, SECOND, LOWEST));
    DECLINES(YIKES_TOO_FEW_SHARES, yikes_open(BOOK, 1, all, 3, shares, 6, UINT64_MAX, OUT, SECOND, LOWEST));
    DECLINES(YIKES_TOO_FEW_SHARES, yikes_open(BOOK, 1, all, 3, shares, 6, UINT64_C(1) << 63, OUT, SECOND, LOWEST));
    DECLINES(YIKES_TOO_FEW_SHARES, yikes_open(BOOK, 1, NULL, 0, NULL, 0, 0, OUT, SECOND, LOWEST));
    DECLINES(YIKES_NO_CODEWORD, yikes_open(BOOK, 1, all, 3, moved, 6, 0, OUT, SECOND, LOWEST));

    /* a share with a wide word is present and wrong: its holder is named, and it counts for 5 and for 6 */
    GIVES(yikes_open(BOOK, 0, all, 3, one_wide, 6, 1, OUT, SECOND, LOWEST), now_opens(job, 2, 3, 3));
    GIVES(yikes_open(BOOK, 0, all, 3, both_words, 6, 1, OUT, SECOND, LOWEST), now_opens(job, 2, 1, 0));
    DECLINES(YIKES_NO_CODEWORD, yikes_open(BOOK, 0, all, 3, one_wide, 6, 0, OUT, SECOND, LOWEST));
    DECLINES(YIKES_NO_CODEWORD, yikes_open(BOOK, 0, all, 3, two_wide, 6, 1, OUT, SECOND, LOWEST));
    DECLINES(YIKES_NO_CODEWORD, yikes_open(BOOK, 0, all, 3, beside_wrong, 6, 1, OUT, SECOND, LOWEST));
    DECLINES(YIKES_NO_CODEWORD, yikes_open(BOOK, 1, all, 3, wide, 6, 0, OUT, SECOND, LOWEST));
    DECLINES(YIKES_NO_CODEWORD, yikes_open(BOOK, 0, all, 1, two_wide, 2, 0, OUT, SECOND, LOWEST));
    DECLINES(YIKES_TOO_FEW_SHARES, yikes_open(BOOK, 1, all, 3, wide, 6, 1, OUT, SECOND, LOWEST));
    DECLINES(YIKES_TOO_FEW_SHARES, yikes_open(BOOK, 0, all, 2, two_wide, 4, 1, OUT, SECOND, LOWEST));
    DECLINES(YIKES_LENGTH, yikes_open(BOOK, 0, all, 3, one_wide, 6, 1, o.words, 3, SECOND, LOWEST));
    DECLINES(YIKES_HOLDER, yikes_open(BOOK, 0, falling, 3, one_wide, 6, 1, OUT, SECOND, LOWEST));
}

/* The lowest bit at which a share differs over all its words, of a wide word at all 64 bits. Holders 1, 2, 4, 5 and 63 have shares of (5, 2, 0, ..),
 * one of them that of the row, and another 16 for its last word. */
static void lowest_bits(void) {
    static const struct {
        uint64_t k, share[3];
        uint8_t bit;
    } rows[] = {{6, {5 ^ 32, 2, 2}, 1},
                {6, {5 ^ 2, 2, 32}, 1},
                {6, {5 ^ 34, 2, 0}, 1},
                {6, {4, 2, 0}, 0},
                {6, {5, 2, 32}, 5},
                {6, {5 ^ 63, 2 ^ 63, 63}, 0},
                {6, {5 ^ 32, 2 ^ 32, 32}, 5},
                {6, {5 + 64, 2, 0}, 6},
                {6, {5, 2, UINT64_C(1) << 63}, 63},
                {6, {5 + (UINT64_C(1) << 63), 2, 64}, 6},
                {6, {5 + 64, 2, 4}, 2},
                {6, {5 ^ 4, 2 + (UINT64_C(1) << 40), 0}, 2},
                {6, {5, 2 ^ 72, 0}, 3},
                {63, {5, 2, UINT64_C(1) << 63}, 63},
                {64, {5, 2, UINT64_C(1) << 63}, 63},
                {64, {5 + (UINT64_C(1) << 62), 2, UINT64_C(1) << 63}, 62},
                {64, {~UINT64_C(5), ~UINT64_C(2), UINT64_MAX}, 0},
                {6, {5, 2, 0}, YIKES_NOT_WRONG}};
    const uint64_t holders[5] = {1, 2, 4, 5, 63}, right[6] = {5, 2};
    size_t i, j, h;
    for (i = 0; i < COUNT(rows); i++) {
        for (j = 0; j < 5; j++) {
            const size_t other = (j + 2) % 5;
            uint64_t shares[30], set = UINT64_C(1) << (holders[other] - 1);
            uint8_t bits[YIKES_LOWEST] = {0};
            for (h = 0; h < 5; h++) memcpy(shares + 6 * h, right, sizeof right);
            memcpy(shares + 6 * j, rows[i].share, sizeof rows[i].share);
            shares[6 * other + 5] = 16;
            bits[holders[other] - 1] = 4;
            bits[holders[j] - 1] = rows[i].bit;
            if (rows[i].bit != YIKES_NOT_WRONG) set |= UINT64_C(1) << (holders[j] - 1);
            GIVES(yikes_open(rows[i].k, 6, 63, 0, holders, 5, shares, 30, 2, o.words, 6, SECOND, LOWEST), now_names(right, 6, set, bits));
        }
    }
}

static uint64_t state = 1;
static uint64_t draw(void) {
    return state = state * UINT64_C(6364136223846793005) + 1442695040888963407u;
}

/* Turns a bit over in a word of a share, and keeps the lowest so far. */
static void turn(uint64_t *share, size_t word, uint64_t bit, uint8_t *lowest) {
    share[word] ^= UINT64_C(1) << bit;
    if (bit < *lowest) *lowest = (uint8_t)bit;
}

/* The largest book, 63 shares of six words of k bits, 21 of them damaged: half of these in bit 63, which is wide below k 64, the others in bit
 * k - 1, and most in a lower bit of another word too. */
static void largest(uint64_t k) {
    uint64_t job[6], coefficients[20 * 6], shares[63 * 6], holders[63], set = 0;
    uint8_t lowest[YIKES_LOWEST];
    size_t i;
    memset(lowest, YIKES_NOT_WRONG, sizeof lowest);
    for (i = 0; i < 6; i++) job[i] = draw() >> (64 - k);
    for (i = 0; i < COUNT(coefficients); i++) coefficients[i] = draw() >> (64 - k);
    check(yikes_deal(k, 6, 63, 20, job, 6, coefficients, COUNT(coefficients), shares, COUNT(shares)) == YIKES_OK, __LINE__, "deal");
    for (i = 0; i < 63; i++) {
        holders[i] = i + 1;
        if (i % 3 == 1) {
            turn(shares + i * 6, i % 6, i % 2 == 0 ? 63 : k - 1, lowest + i);
            if (i % 4 != 0) turn(shares + i * 6, (i + 3) % 6, i % k, lowest + i);
            set |= UINT64_C(1) << i;
        }
    }
    GIVES(yikes_open(k, 6, 63, 20, holders, 63, shares, COUNT(shares), 21, o.words, 6, SECOND, LOWEST), now_names(job, 6, set, lowest));
    DECLINES(YIKES_NO_CODEWORD, yikes_open(k, 6, 63, 20, holders, 63, shares, COUNT(shares), 20, o.words, 6, SECOND, LOWEST));
    DECLINES(YIKES_TOO_FEW_SHARES, yikes_open(k, 6, 63, 20, holders, 63, shares, COUNT(shares), 22, o.words, 6, SECOND, LOWEST));
}

static void readings(void) {
    const struct {
        uint64_t k, w;
        int64_t value;
    } right[] = {{8, 127, 127},           {8, 128, -128},
                 {8, 255, -1},            {1, 0, 0},
                 {1, 1, -1},              {3, 5, -3},
                 {64, 0, 0},              {64, INT64_MAX, INT64_MAX},
                 {64, UINT64_MAX, -1},    {64, UINT64_C(1) << 63, INT64_MIN},
                 {63, INT64_MAX, -1},     {63, UINT64_C(1) << 62, -(INT64_C(1) << 62)}};
    size_t i;
    for (i = 0; i < COUNT(right); i++) {
        const uint64_t expected = (uint64_t)right[i].value;
        GIVES(yikes_signed(right[i].k, right[i].w, SECOND), now_holds(NULL, 0, &expected, 1));
    }
    DECLINES(YIKES_PARAMETERS, yikes_signed(0, 0, SECOND));
    DECLINES(YIKES_PARAMETERS, yikes_signed(65, 0, NULL, 0));
    DECLINES(YIKES_PARAMETERS, yikes_signed(UINT64_MAX, UINT64_MAX, o.second, 2));
    DECLINES(YIKES_LENGTH, yikes_signed(8, 256, NULL, 0));
    DECLINES(YIKES_LENGTH, yikes_signed(8, 1, o.second, 2));
    DECLINES(YIKES_LENGTH, yikes_signed(8, 1, o.second, SIZE_MAX));
    DECLINES(YIKES_WIDE_WORD, yikes_signed(8, 256, SECOND));
    DECLINES(YIKES_WIDE_WORD, yikes_signed(63, UINT64_MAX, SECOND));
}

/* Paper 01's input of 256 bytes: jobs 10 and 11 of three holders, with t 0 and an allowance of 1. */
#define FILE_BYTES 83
static uint8_t files[3 * FILE_BYTES];
static uint8_t bundle[256];
static const uint64_t numbers[2] = {10, 11};
static const uint64_t words[3][4] = {{5, 2, 5, 2}, {5, 2, 1, 2}, {1, 2, 7, 2}};

static void writing(void) {
    const uint8_t order[7] = {3, 0, 0, 0, 16, 0, 1};
    const uint64_t level[2] = {10, 10}, falling[2] = {11, 10}, wide[4] = {5, 2, 8, 2};
    static uint64_t many[1001], zeros[1001 * 2];
    uint8_t pair[2 * FILE_BYTES];
    size_t i;

    check(YIKES_FILE_SIZE(2, 2) == FILE_BYTES, __LINE__, "YIKES_FILE_SIZE");
    GIVES(yikes_write_order(1, o.bytes, 7), now_bytes(order, 7));
    DECLINES(YIKES_LENGTH, yikes_write_order(1, o.bytes, 6));
    DECLINES(YIKES_LENGTH, yikes_write_order(255, o.bytes, 8));
    DECLINES(YIKES_LENGTH, yikes_write_order(0, NULL, 0));
    DECLINES(YIKES_LENGTH, yikes_write_order(0, o.bytes, SIZE_MAX));

    for (i = 0; i < 3; i++) {
        check(yikes_write_file(BOOK, 0, i + 1, 7, numbers, 2, words[i], 4, files + i * FILE_BYTES, FILE_BYTES) == YIKES_OK, __LINE__, "write_file");
    }
    GIVES(yikes_write_file(BOOK, 0, 1, 7, numbers, 2, words[0], 4, o.bytes, FILE_BYTES), now_bytes(files, FILE_BYTES));
    for (i = 0; i < COUNT(outside); i++) {
        DECLINES(YIKES_PARAMETERS, yikes_write_file(outside[i].k, outside[i].d, outside[i].n, outside[i].t, 1, 7, numbers, 2, words[0], 4, o.bytes,
                                                    FILE_BYTES));
    }
    for (i = 0; i < COUNT(many); i++) many[i] = i;
    DECLINES(YIKES_PARAMETERS, yikes_write_file(BOOK, 0, 1, 7, many, 1001, zeros, 2002, o.bytes, YIKES_FILE_SIZE(2, 1001)));
    DECLINES(YIKES_PARAMETERS, yikes_write_file(BOOK, 0, 1, 7, many, SIZE_MAX / 8, zeros, 2002, o.bytes, FILE_BYTES));
    /* so many jobs that their words are 4 modulo 2^64 */
    DECLINES(YIKES_PARAMETERS, yikes_write_file(BOOK, 0, 1, 7, numbers, SIZE_MAX / 2 + 3, words[0], 4, o.bytes, FILE_BYTES));
    DECLINES(YIKES_LENGTH, yikes_write_file(BOOK, 0, 1, 7, numbers, 2, words[0], 3, o.bytes, FILE_BYTES));
    DECLINES(YIKES_LENGTH, yikes_write_file(BOOK, 0, 1, 7, numbers, 2, words[0], HUGE_LENGTH, o.bytes, FILE_BYTES));
    DECLINES(YIKES_LENGTH, yikes_write_file(BOOK, 0, 1, 7, numbers, 1, words[0], 4, o.bytes, FILE_BYTES));
    DECLINES(YIKES_LENGTH, yikes_write_file(BOOK, 0, 1, 7, numbers, 2, words[0], 4, o.bytes, FILE_BYTES - 1));
    DECLINES(YIKES_LENGTH, yikes_write_file(BOOK, 0, 1, 7, numbers, 2, words[0], 4, o.bytes, FILE_BYTES + 1));
    DECLINES(YIKES_LENGTH, yikes_write_file(BOOK, 0, 1, 7, numbers, 2, NULL, 0, o.bytes, FILE_BYTES));
    DECLINES(YIKES_LENGTH, yikes_write_file(BOOK, 0, 0, 7, numbers, 2, words[0], 4, NULL, 0));
    DECLINES(YIKES_HOLDER, yikes_write_file(BOOK, 0, 0, 7, level, 2, wide, 4, o.bytes, FILE_BYTES));
    DECLINES(YIKES_HOLDER, yikes_write_file(BOOK, 0, 4, 7, numbers, 2, words[0], 4, o.bytes, FILE_BYTES));
    DECLINES(YIKES_HOLDER, yikes_write_file(BOOK, 0, SIZE_MAX, 7, numbers, 2, words[0], 4, o.bytes, FILE_BYTES));
    DECLINES(YIKES_MALFORMED, yikes_write_file(BOOK, 0, 1, 7, level, 2, wide, 4, o.bytes, FILE_BYTES));
    DECLINES(YIKES_MALFORMED, yikes_write_file(BOOK, 0, 1, 7, falling, 2, words[0], 4, o.bytes, FILE_BYTES));
    DECLINES(YIKES_WIDE_WORD, yikes_write_file(BOOK, 0, 1, 7, numbers, 2, wide, 4, o.bytes, FILE_BYTES));
    /* a file with no jobs is a file */
    poison();
    check(yikes_write_file(BOOK, 0, 1, UINT64_MAX, NULL, 0, NULL, 0, o.bytes, 23) == YIKES_OK, __LINE__, "a file with no jobs");

    check(yikes_write_bundle(1, files, sizeof files, bundle, sizeof bundle) == YIKES_OK, __LINE__, "write_bundle");
    check(memcmp(bundle, order, 7) == 0 && memcmp(bundle + 7, files, sizeof files) == 0, __LINE__, "bundle");
    GIVES(yikes_write_bundle(1, files, sizeof files, o.bytes, sizeof bundle), now_bytes(bundle, sizeof bundle));
    DECLINES(YIKES_LENGTH, yikes_write_bundle(1, files, sizeof files, o.bytes, sizeof bundle - 1));
    DECLINES(YIKES_LENGTH, yikes_write_bundle(1, files, sizeof files, o.bytes, sizeof bundle + 1));
    DECLINES(YIKES_LENGTH, yikes_write_bundle(1, files, sizeof files, NULL, 0));
    DECLINES(YIKES_LENGTH, yikes_write_bundle(1, files, sizeof files, o.bytes, SIZE_MAX));
    DECLINES(YIKES_MALFORMED, yikes_write_bundle(1, NULL, 0, o.bytes, 7));
    DECLINES(YIKES_MALFORMED, yikes_write_bundle(1, NULL, 0, NULL, 0));
    DECLINES(YIKES_MALFORMED, yikes_write_bundle(1, files, sizeof files - 1, o.bytes, sizeof bundle - 1));
    memcpy(pair, files + FILE_BYTES, FILE_BYTES);
    memcpy(pair + FILE_BYTES, files, FILE_BYTES);
    DECLINES(YIKES_HOLDER, yikes_write_bundle(1, pair, sizeof pair, o.bytes, 7 + sizeof pair));
    check(yikes_write_file(BOOK, 0, 3, 8, numbers, 2, words[2], 4, pair + FILE_BYTES, FILE_BYTES) == YIKES_OK, __LINE__, "write_file");
    DECLINES(YIKES_MISMATCHED, yikes_write_bundle(1, pair, sizeof pair, o.bytes, 7 + sizeof pair));
    pair[6] = 65;
    DECLINES(YIKES_PARAMETERS, yikes_write_bundle(1, pair, sizeof pair, o.bytes, 0));
}

/* A bundle with one byte changed. */
static uint8_t damaged[256];
static const uint8_t *changed(size_t at, uint8_t value) {
    memcpy(damaged, bundle, sizeof damaged);
    damaged[at] = value;
    return damaged;
}

/* Every call on a bundle declines with the bundle's own number first, whatever else is wrong. */
static void refuses(uint8_t number, const uint8_t *bytes, size_t n) {
    DECLINES(number, yikes_accept(bytes, n));
    DECLINES(number, yikes_open_place(bytes, n, 0, OUT, SECOND, LOWEST));
    DECLINES(number, yikes_open_place(bytes, n, SIZE_MAX, NULL, 0, NULL, 0, NULL, 0));
    DECLINES(number, yikes_open_place(bytes, n, 0, OUT, o.second, 2, LOWEST));
    DECLINES(number, yikes_open_place(bytes, n, 0, OUT, SECOND, o.lowest, 63));
    DECLINES(number, yikes_total(bytes, n, 1, 0, 2, OUT));
    DECLINES(number, yikes_total(bytes, n, 0, 9, 8, NULL, 0));
    DECLINES(number, yikes_add_total(bytes, n, 1, 0, 2, OUT));
    DECLINES(number, yikes_add_total(bytes, n, 0, 9, 8, NULL, 0));
    DECLINES(number, yikes_open_run(bytes, n, 0, 1, OUT, SECOND, LOWEST));
    DECLINES(number, yikes_open_run(bytes, n, 0, 1, OUT, SECOND, o.lowest, 65));
    DECLINES(number, yikes_open_run(bytes, n, SIZE_MAX, 0, NULL, 0, NULL, 0, NULL, 0));
    DECLINES(number, yikes_fetch_body(bytes, n, 1, 0, o.second, 2));
    DECLINES(number, yikes_fetch_body(bytes, n, 0, SIZE_MAX, NULL, 0));
    DECLINES(number, yikes_fetch_fault(bytes, n, 1, 0));
    DECLINES(number, yikes_describe(bytes, n, ABOUT));
    DECLINES(number, yikes_describe(bytes, n, NULL, 0));
    DECLINES(number, yikes_job_number(bytes, n, 0, SECOND));
    DECLINES(number, yikes_job_number(bytes, n, SIZE_MAX, NULL, 0));
    DECLINES(number, yikes_file(bytes, n, 0, PART));
    DECLINES(number, yikes_file(bytes, n, SIZE_MAX, NULL, 0));
    DECLINES(number, yikes_list_line(bytes, n, 0, o.bytes, YIKES_LINE, SECOND));
    DECLINES(number, yikes_list_line(bytes, n, SIZE_MAX, NULL, 0, NULL, 0));
    DECLINES(number, yikes_mend(bytes, n, o.bytes, n));
    DECLINES(number, yikes_mend(bytes, n, NULL, 0));
    DECLINES(number, yikes_mend(bytes, n, o.bytes, HUGE_LENGTH));
    DECLINES(number, yikes_desk_open(DESK(3, 0), bytes, n, 0, OUT, SECOND, LOWEST));
    DECLINES(number, yikes_desk_open(DESK(3, 3), bytes, n, SIZE_MAX, NULL, 0, NULL, 0, NULL, 0));
    DECLINES(number, yikes_desk_open(DESK(0, 0), bytes, n, 0, OUT, SECOND, o.lowest, 63));
    /* a desk's own faults come before any byte of the bundle */
    DECLINES(YIKES_PARAMETERS, yikes_desk_open(DESK(1001, 0), bytes, n, 0, OUT, SECOND, LOWEST));
    DECLINES(YIKES_PARAMETERS, yikes_desk_open(DESK(UINT64_MAX, UINT64_MAX), bytes, n, SIZE_MAX, NULL, 0, NULL, 0, NULL, 0));
    DECLINES(YIKES_LENGTH, yikes_desk_open(lent_desk(1001, 0), 1, bytes, n, 0, OUT, SECOND, LOWEST));
    DECLINES(YIKES_LENGTH, yikes_desk_open(NULL, 0, bytes, n, SIZE_MAX, NULL, 0, NULL, 0, NULL, 0));
}

static void faults(void) {
    size_t i;
    refuses(YIKES_MALFORMED, NULL, 0);
    refuses(YIKES_MALFORMED, bundle, 7);
    for (i = 0; i < sizeof bundle; i += 3) {
        if ((i - 7) % FILE_BYTES != 0) check(yikes_accept(bundle, i) == YIKES_MALFORMED, __LINE__, "a bundle that is cut");
    }
    refuses(YIKES_MALFORMED, bundle, 255);
    refuses(YIKES_MALFORMED, changed(4, 1), 256);
    refuses(YIKES_MALFORMED, changed(7, 20), 256);
    refuses(YIKES_PARAMETERS, changed(13, 0), 256);
    refuses(YIKES_PARAMETERS, changed(13, 65), 256);
    refuses(YIKES_PARAMETERS, changed(15, 4), 256);
    refuses(YIKES_PARAMETERS, changed(16, 3), 256);
    refuses(YIKES_PARAMETERS, changed(27, 4), 256);
    refuses(YIKES_HOLDER, changed(17, 0), 256);
    refuses(YIKES_HOLDER, changed(17, 4), 256);
    refuses(YIKES_HOLDER, changed(17 + FILE_BYTES, 1), 256);
    refuses(YIKES_MISMATCHED, changed(18 + FILE_BYTES, 8), 256);
    refuses(YIKES_MISMATCHED, changed(13 + FILE_BYTES, 4), 256);
    refuses(YIKES_MALFORMED, changed(66, 10), 256);
    refuses(YIKES_MISMATCHED, changed(36 + FILE_BYTES, 9), 256);
}

/* What a caller must know of a bundle: the nine words, job numbers, and files, each a file by itself. */
static void describing(void) {
    const uint64_t about[YIKES_ABOUT] = {1, 3, 2, 3, 0, 7, 2, 3, FILE_BYTES};
    const uint64_t lone[YIKES_ABOUT] = {255, 64, 6, 63, 62, UINT64_MAX, 0, 1, 23};
    const size_t n = sizeof bundle;
    uint8_t file[23], small[30];
    uint64_t part[3];
    size_t i;

    GIVES(yikes_describe(bundle, n, ABOUT), now_holds(about, YIKES_ABOUT, NULL, 0));
    DECLINES(YIKES_LENGTH, yikes_describe(bundle, n, o.words, YIKES_ABOUT - 1));
    DECLINES(YIKES_LENGTH, yikes_describe(bundle, n, o.words, YIKES_ABOUT + 1));
    DECLINES(YIKES_LENGTH, yikes_describe(bundle, n, NULL, 0));
    DECLINES(YIKES_LENGTH, yikes_describe(bundle, n, o.words, HUGE_LENGTH));
    /* the largest numbers, and no jobs */
    check(yikes_write_file(64, 6, 63, 62, 63, UINT64_MAX, NULL, 0, NULL, 0, file, 23) == YIKES_OK, __LINE__, "write_file");
    check(yikes_write_bundle(255, file, 23, small, 30) == YIKES_OK, __LINE__, "write_bundle");
    GIVES(yikes_describe(small, 30, ABOUT), now_holds(lone, YIKES_ABOUT, NULL, 0));
    DECLINES(YIKES_OUT_OF_RANGE, yikes_job_number(small, 30, 0, SECOND));

    for (i = 0; i < 2; i++) {
        GIVES(yikes_job_number(bundle, n, i, SECOND), now_holds(NULL, 0, &numbers[i], 1));
    }
    DECLINES(YIKES_OUT_OF_RANGE, yikes_job_number(bundle, n, 2, SECOND));
    DECLINES(YIKES_OUT_OF_RANGE, yikes_job_number(bundle, n, SIZE_MAX, SECOND));
    DECLINES(YIKES_LENGTH, yikes_job_number(bundle, n, 2, NULL, 0));
    DECLINES(YIKES_LENGTH, yikes_job_number(bundle, n, 0, o.second, 2));
    DECLINES(YIKES_LENGTH, yikes_job_number(bundle, n, SIZE_MAX, o.second, HUGE_LENGTH));

    for (i = 0; i < 3; i++) {
        part[0] = i + 1, part[1] = 7 + i * FILE_BYTES, part[2] = FILE_BYTES;
        GIVES(yikes_file(bundle, n, i, PART), now_holds(part, 3, NULL, 0));
        GIVES(yikes_check_file(bundle + part[1], part[2]), untouched());
    }
    DECLINES(YIKES_OUT_OF_RANGE, yikes_file(bundle, n, 3, PART));
    DECLINES(YIKES_OUT_OF_RANGE, yikes_file(bundle, n, SIZE_MAX, PART));
    DECLINES(YIKES_LENGTH, yikes_file(bundle, n, 3, o.words, 2));
    DECLINES(YIKES_LENGTH, yikes_file(bundle, n, 0, o.words, 4));
    DECLINES(YIKES_LENGTH, yikes_file(bundle, n, 3, NULL, 0));
    DECLINES(YIKES_LENGTH, yikes_file(bundle, n, SIZE_MAX, o.words, HUGE_LENGTH));
}

/* The number of the first file with one byte changed. */
static uint8_t file_changed(size_t at, uint8_t value) {
    uint8_t file[FILE_BYTES];
    memcpy(file, files, FILE_BYTES);
    file[at] = value;
    return yikes_check_file(file, FILE_BYTES);
}

/* One file by itself. */
static void lone_files(void) {
    const uint8_t *file = files;
    uint8_t empty[23], wide[FILE_BYTES];
    size_t i;

    GIVES(yikes_check_file(file, FILE_BYTES), untouched());
    DECLINES(YIKES_MALFORMED, yikes_check_file(NULL, 0));
    for (i = 0; i < FILE_BYTES; i++) {
        DECLINES(YIKES_MALFORMED, yikes_check_file(file, i));
    }
    DECLINES(YIKES_MALFORMED, yikes_check_file(file, FILE_BYTES + 1));
    DECLINES(YIKES_MALFORMED, yikes_check_file(files, sizeof files));
    DECLINES(YIKES_MALFORMED, yikes_check_file(bundle, sizeof bundle));
    DECLINES(YIKES_PARAMETERS, file_changed(6, 0));
    DECLINES(YIKES_PARAMETERS, file_changed(6, 65));
    DECLINES(YIKES_PARAMETERS, file_changed(7, 7));
    DECLINES(YIKES_PARAMETERS, file_changed(8, 4));
    DECLINES(YIKES_PARAMETERS, file_changed(9, 3));
    DECLINES(YIKES_PARAMETERS, file_changed(20, 4));
    DECLINES(YIKES_HOLDER, file_changed(10, 0));
    DECLINES(YIKES_HOLDER, file_changed(10, 4));
    DECLINES(YIKES_MALFORMED, file_changed(4, 2));
    DECLINES(YIKES_MALFORMED, file_changed(19, 1));
    DECLINES(YIKES_MALFORMED, file_changed(19, 3));
    DECLINES(YIKES_MALFORMED, file_changed(59, 10));
    GIVES(file_changed(59, 12), untouched());
    check(yikes_write_file(BOOK, 0, 3, 7, NULL, 0, NULL, 0, empty, 23) == YIKES_OK, __LINE__, "write_file");
    GIVES(yikes_check_file(empty, 23), untouched());
    /* a wide word is no fault of a file */
    memcpy(wide, file, FILE_BYTES);
    wide[FILE_BYTES - 1] = 255;
    GIVES(yikes_check_file(wide, FILE_BYTES), untouched());
}

/* Reads by a cursor, a record at a time. */
static void reading(void) {
    const uint64_t kinds[10] = {YIKES_ORDER,   YIKES_HEADING, YIKES_JOB, YIKES_JOB,     YIKES_HEADING,
                                YIKES_JOB,     YIKES_JOB,     YIKES_HEADING, YIKES_JOB, YIKES_JOB};
    const uint64_t end[4] = {1, 0, 256, 0}, nothing[4] = {1, 0, 0, 0};
    const size_t n = sizeof bundle;
    uint64_t step[4];
    uint8_t record[80];
    size_t cursor = 0, i;

    for (i = 0; i < 10; i++) {
        step[0] = 0, step[1] = kinds[i], step[2] = cursor + 6;
        step[3] = kinds[i] == YIKES_ORDER ? 1 : kinds[i] == YIKES_HEADING ? 17 : 24;
        GIVES(yikes_read(bundle, n, cursor, STEP), now_holds(step, 4, NULL, 0));
        cursor = (size_t)(o.words[2] + o.words[3]);
        DECLINES(YIKES_MALFORMED, yikes_read(bundle, cursor - 1, (size_t)step[2] - 6, STEP));
    }
    check(cursor == n, __LINE__, "the last record ends where the bytes do");
    GIVES(yikes_read(bundle, n, n, STEP), now_holds(end, 4, NULL, 0));
    GIVES(yikes_read(NULL, 0, 0, STEP), now_holds(nothing, 4, NULL, 0));
    DECLINES(YIKES_MALFORMED, yikes_read(NULL, 0, 1, STEP));
    DECLINES(YIKES_MALFORMED, yikes_read(bundle, n, n + 1, STEP));
    DECLINES(YIKES_MALFORMED, yikes_read(bundle, n, n - 1, STEP));
    DECLINES(YIKES_MALFORMED, yikes_read(bundle, n, SIZE_MAX, STEP));
    DECLINES(YIKES_MALFORMED, yikes_read(bundle, n, SIZE_MAX - 5, STEP));
    DECLINES(YIKES_MALFORMED, yikes_read(bundle, n, 1, STEP));
    DECLINES(YIKES_MALFORMED, yikes_read(changed(0, 4), n, 0, STEP));
    DECLINES(YIKES_MALFORMED, yikes_read(changed(3, 1), n, 0, STEP));
    DECLINES(YIKES_MALFORMED, yikes_read(changed(4, 3), n, 0, STEP));
    DECLINES(YIKES_MALFORMED, yikes_read(changed(5, 1), n, 0, STEP));
    DECLINES(YIKES_LENGTH, yikes_read(bundle, n, n + 1, o.words, 3));
    DECLINES(YIKES_LENGTH, yikes_read(bundle, n, 0, o.words, 5));
    DECLINES(YIKES_LENGTH, yikes_read(bundle, n, SIZE_MAX, NULL, 0));
    DECLINES(YIKES_LENGTH, yikes_read(NULL, 0, 1, o.words, HUGE_LENGTH));
    /* a book that is out of its range is read */
    step[0] = 0, step[1] = YIKES_HEADING, step[2] = 13, step[3] = 17;
    GIVES(yikes_read(changed(13, 0), n, 7, STEP), now_holds(step, 4, NULL, 0));
    /* the lengths that a job has in some book, and no others */
    for (i = 0; i <= 76; i++) {
        memset(record, 0, sizeof record);
        record[0] = (uint8_t)i, record[4] = YIKES_JOB;
        if (i == 26 || i == 34 || i == 42 || i == 50 || i == 58) {
            step[0] = 0, step[1] = YIKES_JOB, step[2] = 6, step[3] = i - 2;
            GIVES(yikes_read(record, sizeof record, 0, STEP), now_holds(step, 4, NULL, 0));
        } else {
            DECLINES(YIKES_MALFORMED, yikes_read(record, sizeof record, 0, STEP));
        }
    }
}

static void openings(void) {
    const uint64_t job[2] = {5, 2}, total[2] = {2, 4}, zero[2] = {0, 0}, body[2] = {149, 24};
    const size_t n = sizeof bundle;
    uint8_t wide[256], few[256], shown[YIKES_LINE];
    uint64_t length = 0;

    GIVES(yikes_accept(bundle, n), untouched());
    GIVES(yikes_open_place(bundle, n, 0, OUT, SECOND, LOWEST), now_opens(job, 2, 3, 2));
    DECLINES(YIKES_NO_CODEWORD, yikes_open_place(bundle, n, 1, OUT, SECOND, LOWEST));
    DECLINES(YIKES_OUT_OF_RANGE, yikes_open_place(bundle, n, 2, OUT, SECOND, LOWEST));
    DECLINES(YIKES_OUT_OF_RANGE, yikes_open_place(bundle, n, SIZE_MAX, OUT, SECOND, LOWEST));
    DECLINES(YIKES_LENGTH, yikes_open_place(bundle, n, 2, o.words, 1, SECOND, LOWEST));
    DECLINES(YIKES_LENGTH, yikes_open_place(bundle, n, 2, NULL, 0, SECOND, LOWEST));
    DECLINES(YIKES_LENGTH, yikes_open_place(bundle, n, 2, OUT, NULL, 0, LOWEST));
    DECLINES(YIKES_LENGTH, yikes_open_place(bundle, n, 0, OUT, o.second, 2, LOWEST));
    DECLINES(YIKES_LENGTH, yikes_open_place(bundle, n, 0, o.words, HUGE_LENGTH, o.second, HUGE_LENGTH, LOWEST));
    DECLINES(YIKES_LENGTH, yikes_open_place(bundle, n, 2, OUT, SECOND, o.lowest, 63));
    DECLINES(YIKES_LENGTH, yikes_open_place(bundle, n, 0, OUT, SECOND, o.lowest, 65));
    DECLINES(YIKES_LENGTH, yikes_open_place(bundle, n, 0, OUT, SECOND, NULL, 0));
    DECLINES(YIKES_LENGTH, yikes_open_place(bundle, n, 1, OUT, SECOND, o.lowest, HUGE_LENGTH));

    GIVES(yikes_total(bundle, n, 1, 0, 2, OUT), now_holds(total, 2, NULL, 0));
    GIVES(yikes_total(bundle, n, 3, 2, 2, OUT), now_holds(zero, 2, NULL, 0));
    DECLINES(YIKES_HOLDER, yikes_total(bundle, n, 0, 9, 8, NULL, 0));
    DECLINES(YIKES_HOLDER, yikes_total(bundle, n, 4, 0, 2, OUT));
    DECLINES(YIKES_HOLDER, yikes_total(bundle, n, SIZE_MAX, 0, 2, OUT));
    DECLINES(YIKES_LENGTH, yikes_total(bundle, n, 1, 2, 1, o.words, 3));
    DECLINES(YIKES_LENGTH, yikes_total(bundle, n, 1, 2, 1, NULL, 0));
    DECLINES(YIKES_OUT_OF_RANGE, yikes_total(bundle, n, 1, 2, 1, OUT));
    DECLINES(YIKES_OUT_OF_RANGE, yikes_total(bundle, n, 1, 0, 3, OUT));
    DECLINES(YIKES_OUT_OF_RANGE, yikes_total(bundle, n, 1, 0, SIZE_MAX, OUT));
    DECLINES(YIKES_OUT_OF_RANGE, yikes_total(bundle, n, 1, SIZE_MAX, SIZE_MAX, OUT));

    GIVES(yikes_open_run(bundle, n, 0, 1, OUT, SECOND, LOWEST), now_opens(job, 2, 3, 2));
    GIVES(yikes_open_run(bundle, n, 1, 1, OUT, SECOND, LOWEST), now_opens(zero, 2, 0, 0));
    DECLINES(YIKES_NO_CODEWORD, yikes_open_run(bundle, n, 0, 2, OUT, SECOND, LOWEST));
    DECLINES(YIKES_LENGTH, yikes_open_run(bundle, n, 2, 1, o.words, 3, SECOND, LOWEST));
    DECLINES(YIKES_LENGTH, yikes_open_run(bundle, n, 2, 1, OUT, NULL, 0, LOWEST));
    DECLINES(YIKES_LENGTH, yikes_open_run(bundle, n, 0, 1, NULL, 0, SECOND, LOWEST));
    DECLINES(YIKES_LENGTH, yikes_open_run(bundle, n, 2, 1, OUT, SECOND, o.lowest, 63));
    DECLINES(YIKES_LENGTH, yikes_open_run(bundle, n, 0, 1, OUT, SECOND, o.lowest, 65));
    DECLINES(YIKES_LENGTH, yikes_open_run(bundle, n, 0, 0, OUT, SECOND, NULL, 0));
    DECLINES(YIKES_LENGTH, yikes_open_run(bundle, n, 0, 2, OUT, SECOND, o.lowest, HUGE_LENGTH));
    DECLINES(YIKES_OUT_OF_RANGE, yikes_open_run(bundle, n, 2, 1, OUT, SECOND, LOWEST));
    DECLINES(YIKES_OUT_OF_RANGE, yikes_open_run(bundle, n, 0, 3, OUT, SECOND, LOWEST));
    DECLINES(YIKES_OUT_OF_RANGE, yikes_open_run(bundle, n, SIZE_MAX, SIZE_MAX, OUT, SECOND, LOWEST));

    GIVES(yikes_fetch_body(bundle, n, 2, 1, o.second, 2), now_holds(NULL, 0, body, 2));
    check(bundle[body[0]] == 11 && bundle[body[0] + 8] == 1 && bundle[body[0] + 16] == 2, __LINE__, "the body of job 11 of holder 2");
    GIVES(yikes_fetch_fault(bundle, n, 2, 1), untouched());
    DECLINES(YIKES_HOLDER, yikes_fetch_body(bundle, n, 4, 9, NULL, 0));
    DECLINES(YIKES_HOLDER, yikes_fetch_body(bundle, n, 0, 0, o.second, 2));
    DECLINES(YIKES_HOLDER, yikes_fetch_fault(bundle, n, 4, 9));
    DECLINES(YIKES_LENGTH, yikes_fetch_body(bundle, n, 2, 9, NULL, 0));
    DECLINES(YIKES_LENGTH, yikes_fetch_body(bundle, n, 2, 1, o.second, 1));
    DECLINES(YIKES_LENGTH, yikes_fetch_body(bundle, n, 2, 1, o.second, HUGE_LENGTH));
    DECLINES(YIKES_OUT_OF_RANGE, yikes_fetch_body(bundle, n, 2, 2, o.second, 2));
    DECLINES(YIKES_OUT_OF_RANGE, yikes_fetch_body(bundle, n, 2, SIZE_MAX, o.second, 2));
    DECLINES(YIKES_OUT_OF_RANGE, yikes_fetch_fault(bundle, n, 2, 2));

    poison();
    check(yikes_list_line(bundle, n, 0, o.bytes, YIKES_LINE, SECOND) == YIKES_OK, __LINE__, "list_line");
    length = 17;
    check(now_holds(NULL, 0, &length, 1) == 0 && now_bytes("10 open 3/2 -3,2\n", 17), __LINE__, "the line of job 10");
    poison();
    check(yikes_list_line(bundle, n, 1, o.bytes, sizeof o.bytes, SECOND) == YIKES_OK, __LINE__, "list_line");
    length = 9;
    check(now_holds(NULL, 0, &length, 1) == 0 && now_bytes("11 6 - -\n", 9), __LINE__, "the line of job 11");
    DECLINES(YIKES_LENGTH, yikes_list_line(bundle, n, 2, o.bytes, YIKES_LINE - 1, SECOND));
    DECLINES(YIKES_LENGTH, yikes_list_line(bundle, n, 2, NULL, 0, SECOND));
    DECLINES(YIKES_LENGTH, yikes_list_line(bundle, n, 2, o.bytes, YIKES_LINE, NULL, 0));
    DECLINES(YIKES_LENGTH, yikes_list_line(bundle, n, 0, o.bytes, YIKES_LINE, o.second, 2));
    DECLINES(YIKES_OUT_OF_RANGE, yikes_list_line(bundle, n, 2, o.bytes, YIKES_LINE, SECOND));
    DECLINES(YIKES_OUT_OF_RANGE, yikes_list_line(bundle, n, SIZE_MAX, o.bytes, YIKES_LINE, SECOND));

    /* holder 3's share of job 10 made right, and then wide above its right bits: it is wrong where the job is opened, 3 in a run or a total */
    memcpy(wide, bundle, n);
    wide[210] = 5;
    GIVES(yikes_open_place(wide, n, 0, OUT, SECOND, LOWEST), now_opens(job, 2, 0, 0));
    wide[217] = 128;
    GIVES(yikes_accept(wide, n), untouched());
    GIVES(yikes_open_place(wide, n, 0, OUT, SECOND, LOWEST), now_opens(job, 2, 3, 63));
    DECLINES(YIKES_NO_CODEWORD, yikes_open_place(wide, n, 1, OUT, SECOND, LOWEST));
    DECLINES(YIKES_WIDE_WORD, yikes_open_run(wide, n, 0, 1, OUT, SECOND, LOWEST));
    DECLINES(YIKES_WIDE_WORD, yikes_open_run(wide, n, 0, 2, OUT, SECOND, LOWEST));
    DECLINES(YIKES_NO_CODEWORD, yikes_open_run(wide, n, 1, 2, OUT, SECOND, LOWEST));
    GIVES(yikes_open_run(wide, n, 0, 0, OUT, SECOND, LOWEST), now_opens(zero, 2, 0, 0));
    DECLINES(YIKES_WIDE_WORD, yikes_total(wide, n, 3, 0, 1, OUT));
    GIVES(yikes_total(wide, n, 1, 0, 2, OUT), now_holds(total, 2, NULL, 0));
    poison();
    check(yikes_list_line(wide, n, 0, o.bytes, YIKES_LINE, SECOND) == YIKES_OK, __LINE__, "list_line");
    length = 18;
    check(now_holds(NULL, 0, &length, 1) == 0 && now_bytes("10 open 3/63 -3,2\n", 18), __LINE__, "the line of a job with a wide word");
    /* a second wide share is one more than the allowance, and with an allowance of 2 the files are too few */
    wide[44 + 8] |= 8;
    DECLINES(YIKES_NO_CODEWORD, yikes_open_place(wide, n, 0, OUT, SECOND, LOWEST));
    DECLINES(YIKES_WIDE_WORD, yikes_open_run(wide, n, 0, 1, OUT, SECOND, LOWEST));
    poison();
    check(yikes_list_line(wide, n, 0, o.bytes, YIKES_LINE, SECOND) == YIKES_OK && memcmp(o.bytes, "10 6 - -\n", 9) == 0, __LINE__, "two wide shares");
    wide[6] = 2;
    DECLINES(YIKES_TOO_FEW_SHARES, yikes_open_place(wide, n, 0, OUT, SECOND, LOWEST));
    DECLINES(YIKES_WIDE_WORD, yikes_open_run(wide, n, 0, 1, OUT, SECOND, LOWEST));

    /* an allowance that the files are too few for */
    memcpy(few, bundle, n);
    few[6] = 2;
    DECLINES(YIKES_TOO_FEW_SHARES, yikes_open_place(few, n, 0, OUT, SECOND, LOWEST));
    DECLINES(YIKES_TOO_FEW_SHARES, yikes_open_run(few, n, 0, 0, OUT, SECOND, LOWEST));
    memset(shown, 0, sizeof shown);
    check(yikes_list_line(few, n, 0, shown, sizeof shown, &length, 1) == YIKES_OK && length == 9 && memcmp(shown, "10 5 - -\n", 10) == 0, __LINE__,
          "too few files");
}

/* yikes_add_total on an output that is set to lent words first: untouched() then says that they stand there still. */
static uint8_t add_total(const uint8_t *bytes, size_t n, size_t holder, size_t a, size_t b, const uint64_t *lent, size_t length) {
    memcpy(o.words, lent, length * sizeof *lent);
    memcpy(fresh.words, lent, length * sizeof *lent);
    return yikes_add_total(bytes, n, holder, a, b, o.words, length);
}

/* Totals added to a lent element. In the bundle of 256 bytes the files have (5, 2) and (5, 2), (5, 2) and (1, 2), (1, 2) and (7, 2). */
static void adding(void) {
    const uint64_t lent[3] = {7, 5, 1}, zero[2] = {0, 0}, total[2] = {2, 4}, sum[2] = {1, 1}, first[2] = {4, 7}, third[2] = {0, 7}, all[2] = {7, 1};
    const uint64_t wide[3][2] = {{8, 5}, {7, UINT64_MAX}, {UINT64_C(1) << 63, 0}};
    const size_t n = sizeof bundle;
    uint8_t late[256];
    size_t i;

    GIVES(add_total(bundle, n, 1, 0, 2, zero, 2), now_holds(total, 2, NULL, 0));
    GIVES(add_total(bundle, n, 1, 0, 2, lent, 2), now_holds(sum, 2, NULL, 0));
    GIVES(add_total(bundle, n, 1, 0, 1, lent, 2), now_holds(first, 2, NULL, 0));
    for (i = 0; i <= 2; i++) GIVES(add_total(bundle, n, 3, i, i, lent, 2), untouched());
    /* one run after another, and then the other files */
    GIVES(add_total(bundle, n, 1, 0, 1, lent, 2) || yikes_add_total(bundle, n, 1, 1, 2, OUT), now_holds(sum, 2, NULL, 0));
    GIVES(add_total(bundle, n, 1, 0, 2, lent, 2) || yikes_add_total(bundle, n, 2, 0, 2, OUT) || yikes_add_total(bundle, n, 3, 0, 2, OUT),
          now_holds(all, 2, NULL, 0));

    /* what an output is filled with is wide, so that 3 would hold too */
    DECLINES(YIKES_HOLDER, yikes_add_total(bundle, n, 0, 9, 8, NULL, 0));
    DECLINES(YIKES_HOLDER, yikes_add_total(bundle, n, 4, 9, 8, o.words, 3));
    DECLINES(YIKES_HOLDER, yikes_add_total(bundle, n, SIZE_MAX, 0, 2, OUT));
    DECLINES(YIKES_HOLDER, add_total(bundle, n, 4, 0, 2, lent, 2));
    DECLINES(YIKES_LENGTH, yikes_add_total(bundle, n, 1, 2, 1, o.words, 3));
    DECLINES(YIKES_LENGTH, yikes_add_total(bundle, n, 1, 2, 1, NULL, 0));
    DECLINES(YIKES_LENGTH, yikes_add_total(bundle, n, 1, 0, 2, o.words, HUGE_LENGTH));
    DECLINES(YIKES_LENGTH, add_total(bundle, n, 1, 0, 2, lent, 1));
    DECLINES(YIKES_LENGTH, add_total(bundle, n, 1, 0, 2, lent, 3));
    DECLINES(YIKES_OUT_OF_RANGE, yikes_add_total(bundle, n, 1, 2, 1, OUT));
    DECLINES(YIKES_OUT_OF_RANGE, yikes_add_total(bundle, n, 1, SIZE_MAX, SIZE_MAX, OUT));
    DECLINES(YIKES_OUT_OF_RANGE, add_total(bundle, n, 1, 2, 1, lent, 2));
    DECLINES(YIKES_OUT_OF_RANGE, add_total(bundle, n, 1, 0, 3, lent, 2));
    DECLINES(YIKES_OUT_OF_RANGE, add_total(bundle, n, 1, 0, SIZE_MAX, lent, 2));
    DECLINES(YIKES_OUT_OF_RANGE, add_total(bundle, n, 1, 3, 3, lent, 2));
    for (i = 0; i < COUNT(wide); i++) {
        DECLINES(YIKES_WIDE_WORD, add_total(bundle, n, 1, 0, 2, wide[i], 2));
        DECLINES(YIKES_WIDE_WORD, add_total(bundle, n, 1, 0, 0, wide[i], 2));
        DECLINES(YIKES_WIDE_WORD, add_total(bundle, n, 1, 2, 2, wide[i], 2));
    }

    /* the last word of holder 3's last job made wide: it counts in the runs that have it */
    memcpy(late, bundle, n);
    late[255] = 1;
    DECLINES(YIKES_WIDE_WORD, add_total(late, n, 3, 0, 2, lent, 2));
    DECLINES(YIKES_WIDE_WORD, add_total(late, n, 3, 1, 2, lent, 2));
    GIVES(add_total(late, n, 3, 2, 2, lent, 2), untouched());
    GIVES(add_total(late, n, 3, 0, 1, lent, 2), now_holds(third, 2, NULL, 0));
    GIVES(add_total(late, n, 1, 0, 2, lent, 2), now_holds(sum, 2, NULL, 0));
    /* no jobs: nothing to add, but the element is looked at */
    check(yikes_write_file(BOOK, 0, 3, 7, NULL, 0, NULL, 0, late + 7, 23) == YIKES_OK, __LINE__, "write_file");
    GIVES(add_total(late, 30, 3, 0, 0, lent, 2), untouched());
    DECLINES(YIKES_WIDE_WORD, add_total(late, 30, 3, 0, 0, wide[0], 2));
    DECLINES(YIKES_OUT_OF_RANGE, add_total(late, 30, 3, 0, 1, wide[0], 2));
}

/* Forty jobs of the largest book, added to drawn words as sums in C say, in one run and in two; then with the last word of all made wide, which none
 * of 64 bits is. */
static void adding_many(uint64_t k) {
    enum { JOBS = 40, SIZE = 23 + JOBS * (14 + 8 * 6) };
    static uint8_t bytes[7 + SIZE];
    uint64_t numbers[JOBS], words[JOBS * 6], lent[6], sum[6];
    size_t i;
    for (i = 0; i < 6; i++) lent[i] = sum[i] = draw() >> (64 - k);
    for (i = 0; i < JOBS; i++) numbers[i] = i;
    for (i = 0; i < COUNT(words); i++) {
        words[i] = draw() >> (64 - k);
        sum[i % 6] = (sum[i % 6] + words[i]) & UINT64_MAX >> (64 - k);
    }
    check(yikes_write_order(0, bytes, 7) == YIKES_OK, __LINE__, "write_order");
    check(yikes_write_file(k, 6, 63, 20, 63, 7, numbers, JOBS, words, COUNT(words), bytes + 7, SIZE) == YIKES_OK, __LINE__, "write_file");
    GIVES(add_total(bytes, sizeof bytes, 63, 0, JOBS, lent, 6), now_holds(sum, 6, NULL, 0));
    GIVES(add_total(bytes, sizeof bytes, 63, 0, 13, lent, 6) || yikes_add_total(bytes, sizeof bytes, 63, 13, JOBS, o.words, 6),
          now_holds(sum, 6, NULL, 0));
    bytes[sizeof bytes - 1] ^= 128;
    sum[5] ^= UINT64_C(1) << 63;
    if (k == 64) GIVES(add_total(bytes, sizeof bytes, 63, 0, JOBS, lent, 6), now_holds(sum, 6, NULL, 0));
    else DECLINES(YIKES_WIDE_WORD, add_total(bytes, sizeof bytes, 63, 0, JOBS, lent, 6));
}

/* Paper 02's example: in the bundle of 256 bytes holder 3's share of job 10 is replaced, and job 11, which declines, stays. */
static void mending(void) {
    const uint64_t job[2] = {5, 2};
    const size_t n = sizeof bundle;
    uint8_t right[256], other[256], file[23], empty[30];

    memcpy(right, bundle, n);
    right[210] = 5;
    GIVES(yikes_mend(bundle, n, o.bytes, n), now_bytes(right, n));
    GIVES(yikes_mend(right, n, o.bytes, n), now_bytes(right, n));
    GIVES(yikes_open_place(right, n, 0, OUT, SECOND, LOWEST), now_opens(job, 2, 0, 0));
    DECLINES(YIKES_NO_CODEWORD, yikes_open_place(right, n, 1, OUT, SECOND, LOWEST));
    DECLINES(YIKES_LENGTH, yikes_mend(bundle, n, o.bytes, n - 1));
    DECLINES(YIKES_LENGTH, yikes_mend(bundle, n, o.bytes, n + 1));
    DECLINES(YIKES_LENGTH, yikes_mend(bundle, n, o.bytes, 2 * n));
    DECLINES(YIKES_LENGTH, yikes_mend(bundle, n, NULL, 0));
    DECLINES(YIKES_LENGTH, yikes_mend(bundle, n, o.bytes, HUGE_LENGTH));

    /* a wide share is replaced whole, also where its low bits are right, and a wide word in a job that declines stays */
    memcpy(other, bundle, n);
    other[210] = 5, other[217] = 128, other[81] = 1, right[81] = 1;
    GIVES(yikes_mend(other, n, o.bytes, n), now_bytes(right, n));
    /* the first holder wrong in place of the third, in its second word */
    memcpy(other, right, n);
    other[52] = 3;
    GIVES(yikes_mend(other, n, o.bytes, n), now_bytes(right, n));
    /* two shares wrong, which is one more than the allowance; then an allowance for which the files are too few */
    other[210] = 1;
    GIVES(yikes_mend(other, n, o.bytes, n), now_bytes(other, n));
    other[6] = 2;
    GIVES(yikes_mend(other, n, o.bytes, n), now_bytes(other, n));
    /* files cut off between two of them are a bundle too, and no jobs need no mending */
    memcpy(other, bundle, n);
    other[6] = 0;
    GIVES(yikes_mend(other, 7 + 2 * FILE_BYTES, o.bytes, 7 + 2 * FILE_BYTES), now_bytes(other, 7 + 2 * FILE_BYTES));
    DECLINES(YIKES_LENGTH, yikes_mend(other, 7 + 2 * FILE_BYTES, o.bytes, n));
    check(yikes_write_file(BOOK, 0, 3, 7, NULL, 0, NULL, 0, file, 23) == YIKES_OK, __LINE__, "write_file");
    check(yikes_write_bundle(1, file, 23, empty, 30) == YIKES_OK, __LINE__, "write_bundle");
    GIVES(yikes_mend(empty, 30, o.bytes, 30), now_bytes(empty, 30));
    DECLINES(YIKES_LENGTH, yikes_mend(empty, 30, o.bytes, 29));
}

/* All 63 files of the largest book with one job, as they were written, and with 21 shares of it changed in the highest of 64 bits or in all words. */
enum { LARGE_FILE = 23 + 14 + 8 * 6 };
static uint8_t written[7 + 63 * LARGE_FILE], since[sizeof written];

static void largest_bundle(uint64_t k) {
    const uint64_t number[1] = {UINT64_MAX};
    uint64_t job[6], coefficients[20 * 6], shares[63 * 6];
    size_t i;
    for (i = 0; i < 6; i++) job[i] = draw() >> (64 - k);
    for (i = 0; i < COUNT(coefficients); i++) coefficients[i] = draw() >> (64 - k);
    check(yikes_deal(k, 6, 63, 20, job, 6, coefficients, COUNT(coefficients), shares, COUNT(shares)) == YIKES_OK, __LINE__, "deal");
    check(yikes_write_order(21, written, 7) == YIKES_OK, __LINE__, "write_order");
    for (i = 0; i < 63; i++) {
        check(yikes_write_file(k, 6, 63, 20, i + 1, 7, number, 1, shares + 6 * i, 6, written + 7 + i * LARGE_FILE, LARGE_FILE) == YIKES_OK, __LINE__,
              "write_file");
    }
    memcpy(since, written, sizeof written);
    for (i = 1; i < 63; i += 3) {
        uint8_t *share = since + 7 + i * LARGE_FILE + 37;
        if (i % 2 == 0) share[8 * (i % 6) + 7] ^= 128;
        else memset(share, (int)i, 8 * 6);
    }
}

/* Mended, the files are as they were written. */
static void mending_largest(uint64_t k) {
    largest_bundle(k);
    GIVES(yikes_mend(since, sizeof since, o.bytes, sizeof since), now_bytes(written, sizeof written));
    GIVES(yikes_mend(written, sizeof written, o.bytes, sizeof written), now_bytes(written, sizeof written));
    since[6] = 20;
    GIVES(yikes_mend(since, sizeof since, o.bytes, sizeof since), now_bytes(since, sizeof since));
    since[6] = 22;
    GIVES(yikes_mend(since, sizeof since, o.bytes, sizeof since), now_bytes(since, sizeof since));
}

/* What a start stores, and a desk's own faults, which come before all others. In the bundle of 256 bytes place 0 opens with holder 3 wrong, place 1
 * gives 6, and there is no place 2. */
static void desk_faults(void) {
    const uint64_t allowed[] = {0, 1, 3, 999, 1000}, above[] = {1001, 1002, UINT64_C(1) << 32, UINT64_C(1) << 63, UINT64_MAX};
    const size_t lengths[] = {0, 1, 3, 4, HUGE_LENGTH}, n = sizeof bundle;
    size_t i;

    for (i = 0; i < COUNT(allowed); i++) {
        GIVES(yikes_desk_start(DESK(7, 3), allowed[i]), now_starts(allowed[i]));
        GIVES(yikes_desk_start(DESK(UINT64_MAX, UINT64_MAX), allowed[i]), now_starts(allowed[i]));
    }
    for (i = 0; i < COUNT(above); i++) {
        DECLINES(YIKES_PARAMETERS, yikes_desk_start(DESK(7, 3), above[i]));
        DECLINES(YIKES_PARAMETERS, yikes_desk_open(DESK(above[i], 0), bundle, n, 0, OUT, SECOND, LOWEST));
        DECLINES(YIKES_PARAMETERS, yikes_desk_open(DESK(above[i], above[i]), bundle, n, 2, NULL, 0, NULL, 0, NULL, 0));
        DECLINES(YIKES_PARAMETERS, yikes_desk_open(DESK(above[i], UINT64_MAX), bundle, 255, 0, OUT, SECOND, LOWEST));
    }
    for (i = 0; i < COUNT(lengths); i++) {
        DECLINES(YIKES_LENGTH, yikes_desk_start(lent_desk(7, 3), lengths[i], 5));
        DECLINES(YIKES_LENGTH, yikes_desk_start(lent_desk(7, 3), lengths[i], 1001));
        DECLINES(YIKES_LENGTH, yikes_desk_open(lent_desk(7, 3), lengths[i], bundle, n, 0, OUT, SECOND, LOWEST));
        DECLINES(YIKES_LENGTH, yikes_desk_open(lent_desk(1001, 3), lengths[i], bundle, 255, 2, NULL, 0, NULL, 0, NULL, 0));
    }
    DECLINES(YIKES_LENGTH, yikes_desk_start(NULL, 0, 5));
    DECLINES(YIKES_LENGTH, yikes_desk_start(NULL, 0, 1001));
    DECLINES(YIKES_LENGTH, yikes_desk_open(NULL, 0, bundle, n, 0, OUT, SECOND, LOWEST));
}

/* The other numbers of an opening, each where those that come after it hold too: with an allowance of two wrong shares every place gives 5. */
static void desk_orders(void) {
    const uint64_t closed[][2] = {{0, 0}, {0, 1}, {1, 1}, {3, 3}, {3, 4}, {1000, 1000}, {1000, 1001}, {1000, UINT64_C(1) << 63},
                                  {1000, UINT64_MAX - 1}, {1000, UINT64_MAX}};
    const size_t n = sizeof bundle;
    uint8_t few[256];
    size_t i;

    memcpy(few, bundle, n);
    few[6] = 2;
    DECLINES(YIKES_LENGTH, yikes_desk_open(DESK(3, 3), few, n, 2, o.words, 1, SECOND, LOWEST));
    DECLINES(YIKES_LENGTH, yikes_desk_open(DESK(3, 3), few, n, 2, o.words, 3, SECOND, LOWEST));
    DECLINES(YIKES_LENGTH, yikes_desk_open(DESK(3, 3), few, n, 2, NULL, 0, SECOND, LOWEST));
    DECLINES(YIKES_LENGTH, yikes_desk_open(DESK(3, 3), few, n, 2, o.words, HUGE_LENGTH, SECOND, LOWEST));
    DECLINES(YIKES_LENGTH, yikes_desk_open(DESK(3, 3), few, n, 2, OUT, NULL, 0, LOWEST));
    DECLINES(YIKES_LENGTH, yikes_desk_open(DESK(3, 3), few, n, 2, OUT, o.second, 2, LOWEST));
    DECLINES(YIKES_LENGTH, yikes_desk_open(DESK(3, 3), few, n, 2, OUT, o.second, HUGE_LENGTH, LOWEST));
    DECLINES(YIKES_LENGTH, yikes_desk_open(DESK(3, 3), few, n, 2, OUT, SECOND, NULL, 0));
    DECLINES(YIKES_LENGTH, yikes_desk_open(DESK(3, 3), few, n, 2, OUT, SECOND, o.lowest, 63));
    DECLINES(YIKES_LENGTH, yikes_desk_open(DESK(3, 3), few, n, 2, OUT, SECOND, o.lowest, 65));
    DECLINES(YIKES_LENGTH, yikes_desk_open(DESK(3, 3), few, n, 2, OUT, SECOND, o.lowest, HUGE_LENGTH));
    DECLINES(YIKES_LENGTH, yikes_desk_open(DESK(3, 0), bundle, n, 0, o.words, 3, SECOND, LOWEST));
    DECLINES(YIKES_LENGTH, yikes_desk_open(DESK(3, 0), bundle, n, 0, OUT, o.second, 2, LOWEST));
    DECLINES(YIKES_LENGTH, yikes_desk_open(DESK(3, 0), bundle, n, 0, OUT, SECOND, o.lowest, 63));
    for (i = 0; i < COUNT(closed); i++) {
        const uint64_t q = closed[i][0], count = closed[i][1];
        DECLINES(YIKES_OUT_OF_RANGE, yikes_desk_open(DESK(q, count), few, n, 2, OUT, SECOND, LOWEST));
        DECLINES(YIKES_OUT_OF_RANGE, yikes_desk_open(DESK(q, count), bundle, n, SIZE_MAX, OUT, SECOND, LOWEST));
        DECLINES(YIKES_DESK_CLOSED, yikes_desk_open(DESK(q, count), bundle, n, 0, OUT, SECOND, LOWEST));
        DECLINES(YIKES_DESK_CLOSED, yikes_desk_open(DESK(q, count), bundle, n, 1, OUT, SECOND, LOWEST));
        DECLINES(YIKES_DESK_CLOSED, yikes_desk_open(DESK(q, count), few, n, 0, OUT, SECOND, LOWEST));
    }
}

/* An opening at a desk beside one without, which gives the same number and the same in all outputs while the count is below the allowance. The record
 * is left for the next call, with 0 counted. */
static void at_desk(int line, uint8_t number, uint64_t *desk, const uint8_t *bytes, size_t n, size_t place, size_t d) {
    const uint64_t allowance = desk[YIKES_DESK_ALLOWANCE], count = desk[YIKES_DESK_COUNT];
    int holds;
    poison();
    holds = yikes_desk_open(DESK(allowance, count), bytes, n, place, o.words, d, SECOND, LOWEST) == number;
    memcpy(desk, o.desk, YIKES_DESK * sizeof *desk);
    holds = holds && desk[YIKES_DESK_ALLOWANCE] == allowance && desk[YIKES_DESK_COUNT] == count + (number == YIKES_OK);
    if (count < allowance) {
        fresh = o;
        memset(&o, 0xa5, sizeof o);
        lent_desk(desk[YIKES_DESK_ALLOWANCE], desk[YIKES_DESK_COUNT]);
        holds = yikes_open_place(bytes, n, place, o.words, d, SECOND, LOWEST) == number && holds;
    }
    check(holds && untouched(), line, "an opening at a desk");
}
#define AT_DESK(number, bytes, place, d) at_desk(__LINE__, number, desk, bytes, sizeof bytes, place, d)

/* A month with an allowance of q: refusals and openings by turns until the desk is closed. */
static void month(uint64_t *desk, uint64_t q) {
    uint8_t few[256];
    uint64_t i;
    memcpy(few, bundle, sizeof few);
    few[6] = 2;
    check(yikes_desk_start(desk, YIKES_DESK, q) == YIKES_OK && desk[0] == q && desk[1] == 0, __LINE__, "the start of a month");
    for (i = 0; i < q; i++) {
        AT_DESK(YIKES_OUT_OF_RANGE, bundle, 2, 2);
        AT_DESK(YIKES_TOO_FEW_SHARES, few, 0, 2);
        AT_DESK(YIKES_NO_CODEWORD, bundle, 1, 2);
        AT_DESK(YIKES_OK, bundle, 0, 2);
    }
    AT_DESK(YIKES_OUT_OF_RANGE, bundle, 2, 2);
    AT_DESK(YIKES_DESK_CLOSED, few, 0, 2);
    AT_DESK(YIKES_DESK_CLOSED, bundle, 1, 2);
    AT_DESK(YIKES_DESK_CLOSED, bundle, 0, 2);
    check(yikes_desk_start(desk, YIKES_DESK, 1001) == YIKES_PARAMETERS && desk[0] == q && desk[1] == q, __LINE__, "a start that declines");
}

static void desks(void) {
    const uint64_t job[2] = {5, 2}, total[2] = {2, 4}, sum[2] = {7, 6}, shares[6] = {5, 2, 5, 2, 1, 2}, holders[3] = {1, 2, 3};
    const uint64_t length = 17;
    const size_t n = sizeof bundle;
    uint64_t desk[YIKES_DESK] = {UINT64_MAX, UINT64_MAX};
    uint8_t right[256];

    memcpy(right, bundle, n);
    right[210] = 5;
    GIVES(yikes_desk_open(DESK(3, 0), bundle, n, 0, OUT, SECOND, LOWEST), now_counts(1, job, 2, 3, 2));
    GIVES(yikes_desk_open(DESK(3, 2), bundle, n, 0, OUT, SECOND, LOWEST), now_counts(3, job, 2, 3, 2));
    GIVES(yikes_desk_open(DESK(1000, 999), right, n, 0, OUT, SECOND, LOWEST), now_counts(1000, job, 2, 0, 0));
    DECLINES(YIKES_NO_CODEWORD, yikes_desk_open(DESK(3, 2), bundle, n, 1, OUT, SECOND, LOWEST));
    right[217] = 128;
    GIVES(yikes_desk_open(DESK(1, 0), right, n, 0, OUT, SECOND, LOWEST), now_counts(1, job, 2, 3, 63));
    right[217] = 0;

    month(desk, 3);
    month(desk, 0);
    month(desk, 1000);
    month(desk, 1);

    /* a closed desk closes nothing else */
    GIVES((lent_desk(2, 2), yikes_open_place(bundle, n, 0, OUT, SECOND, LOWEST)), now_opens(job, 2, 3, 2));
    GIVES((lent_desk(2, 2), yikes_open(BOOK, 0, holders, 3, shares, 6, 1, OUT, SECOND, LOWEST)), now_opens(job, 2, 3, 2));
    GIVES((lent_desk(2, 2), yikes_open_run(bundle, n, 0, 1, OUT, SECOND, LOWEST)), now_opens(job, 2, 3, 2));
    GIVES((lent_desk(2, 2), yikes_total(bundle, n, 1, 0, 2, OUT)), now_holds(total, 2, NULL, 0));
    GIVES((lent_desk(2, 2), add_total(bundle, n, 1, 0, 2, job, 2)), now_holds(sum, 2, NULL, 0));
    GIVES((lent_desk(2, 2), yikes_list_line(bundle, n, 0, o.bytes, YIKES_LINE, SECOND)),
          !now_holds(NULL, 0, &length, 1) && now_bytes("10 open 3/2 -3,2\n", 17));
    GIVES((lent_desk(2, 2), yikes_mend(bundle, n, o.bytes, n)), now_bytes(right, n));
}

/* The largest book at a desk, with 21 holders named; with another allowance of wrong shares it gives 6 and then 5, which are not counted. */
static void desks_largest(uint64_t k) {
    uint64_t desk[YIKES_DESK] = {2, 0};
    largest_bundle(k);
    AT_DESK(YIKES_OK, since, 0, 6);
    check(o.second[0] == UINT64_C(0x2492492492492492), __LINE__, "21 wrong holders");
    since[6] = 20;
    AT_DESK(YIKES_NO_CODEWORD, since, 0, 6);
    since[6] = 22;
    AT_DESK(YIKES_TOO_FEW_SHARES, since, 0, 6);
    AT_DESK(YIKES_OK, written, 0, 6);
    check(o.second[0] == 0, __LINE__, "no wrong holder");
    AT_DESK(YIKES_DESK_CLOSED, since, 0, 6);
    AT_DESK(YIKES_DESK_CLOSED, written, 0, 6);
}

/* Job text: what is lent and given, in the labs' own book. */
#define LABS 16, 4, 15, 4
#define JOB o.words, 4
enum { TEXT_MOST = 135, TEXT_ROOM = 32768 };

/* Paper 02's five lines, and a job of the labs' own book. */
static const char *const labels[5] = {"JOB=", "SPH=", "CYL=", "AX=", "CTHICK="};
static const char *const values[5] = {"10", "-3.25", "0.50", "90", "2.18"};
static const char *const ends[5] = {"\r\n", "\r\n", "\r\n", "\r\n", "\r\n"};
static const uint64_t lens_job[8] = {65536 - 325, 50, 90, 218, 1, 2, 3, 4};
static const char example[] = "JOB=10\r\nSPH=-3.25\r\nCYL=0.50\r\nAX=90\r\nCTHICK=2.18\r\n";
enum { EXAMPLE = sizeof example - 1 };
static uint8_t text[TEXT_ROOM];

/* Puts together five lines of any labels, values and ends. */
static size_t lines(const char *const *label, const char *const *value, const char *const *end) {
    size_t i, n = 0;
    for (i = 0; i < 5; i++) n += (size_t)sprintf((char *)text + n, "%s%s%s", label[i], value[i], end[i]);
    return n;
}

/* The text of a job, as the C library prints its numbers. */
static size_t text_of(char *out, uint64_t k, uint64_t number, const uint64_t *w) {
    const char *sign[4];
    uint64_t v[4];
    size_t i;
    for (i = 0; i < 4; i++) {
        const int minus = w[i] >> (k - 1) & 1;
        sign[i] = minus ? "-" : "";
        v[i] = minus ? (UINT64_MAX >> (64 - k)) - w[i] + 1 : w[i];
    }
    return (size_t)sprintf(out,
                           "JOB=%" PRIu64 "\r\nSPH=%s%" PRIu64 ".%02" PRIu64 "\r\nCYL=%s%" PRIu64 ".%02" PRIu64 "\r\nAX=%s%" PRIu64
                           "\r\nCTHICK=%s%" PRIu64 ".%02" PRIu64 "\r\n",
                           number, sign[0], v[0] / 100, v[0] % 100, sign[1], v[1] / 100, v[1] % 100, sign[2], v[2], sign[3], v[3] / 100, v[3] % 100);
}

/* Whether bytes are the text of a job, and of which: signs and digits are taken as they come, modulo 2^64, and the text of what they make is
 * compared. */
static int is_text(const uint8_t *bytes, size_t n, uint64_t k, uint64_t *number, uint64_t *w) {
    char right[2 * TEXT_MOST];
    uint64_t v[5] = {0};
    int minus[5] = {0};
    size_t i, line = 0;
    for (i = 0; i < n && line < 5; i++) {
        if (bytes[i] == '\n') line++;
        else if (bytes[i] == '-') minus[line] = 1;
        else if (bytes[i] >= '0' && bytes[i] <= '9') v[line] = 10 * v[line] + (uint64_t)bytes[i] - '0';
    }
    *number = v[0];
    for (i = 0; i < 4; i++) w[i] = (minus[i + 1] ? 0 - v[i + 1] : v[i + 1]) & UINT64_MAX >> (64 - k);
    return text_of(right, k, *number, w) == n && memcmp(right, bytes, n) == 0;
}

/* Reads bytes beside that: the job whose text they are, or 11. */
static void reads(int line, uint64_t k, const uint8_t *bytes, size_t n) {
    uint64_t number, w[4];
    const int right = is_text(bytes, n, k, &number, w);
    uint8_t answer;
    poison();
    answer = yikes_read_text(k, 4, 15, 4, bytes, n, SECOND, JOB);
    check(right ? answer == YIKES_OK && now_holds(w, 4, &number, 1) : answer == YIKES_TEXT && untouched(), line, "bytes beside the text of a job");
}

/* The same of the n bytes of `text`, which are known to be no text. */
static void no_text(int line, uint64_t k, size_t n) {
    uint64_t number, w[4];
    check(!is_text(text, n, k, &number, w), line, "a text of no job");
    reads(line, k, text, n);
}

/* One job: the length of its text, the text, and the job read from it; and outputs of other lengths. */
static void one_job(int line, uint64_t k, uint64_t number, const uint64_t *w, const void *right, size_t n) {
    const uint64_t size = n;
    poison();
    check(yikes_text_size(k, 4, 15, 4, number, w, 4, SECOND) == YIKES_OK && now_holds(NULL, 0, &size, 1), line, "the length of a text");
    poison();
    check(yikes_write_text(k, 4, 15, 4, number, w, 4, o.bytes, n) == YIKES_OK && now_bytes(right, n), line, "the text of a job");
    poison();
    check(yikes_read_text(k, 4, 15, 4, (const uint8_t *)right, n, SECOND, JOB) == YIKES_OK && now_holds(w, 4, &number, 1), line, "the job of a text");
    poison();
    check(yikes_write_text(k, 4, 15, 4, number, w, 4, o.bytes, n - 1) == YIKES_LENGTH && untouched(), line, "a byte less");
    poison();
    check(yikes_write_text(k, 4, 15, 4, number, w, 4, o.bytes, n + 1) == YIKES_LENGTH && untouched(), line, "a byte more");
}

/* Jobs whose text is known, and those at the ends of each range: the least and the greatest value of a word, in each line by itself. What is below
 * or above them is no text. */
static void texts(void) {
    static const struct {
        uint64_t k, number, words[4];
        const char *text;
    } known[] = {
        {16, 10, {65536 - 325, 50, 90, 218}, "JOB=10\r\nSPH=-3.25\r\nCYL=0.50\r\nAX=90\r\nCTHICK=2.18\r\n"},
        {16, 501, {65536 - 225, 65536 - 75, 180, 210}, "JOB=501\r\nSPH=-2.25\r\nCYL=-0.75\r\nAX=180\r\nCTHICK=2.10\r\n"},
        {16, 0, {0, 0, 0, 0}, "JOB=0\r\nSPH=0.00\r\nCYL=0.00\r\nAX=0\r\nCTHICK=0.00\r\n"},
        {8, 9, {5, 251, 255, 156}, "JOB=9\r\nSPH=0.05\r\nCYL=-0.05\r\nAX=-1\r\nCTHICK=-1.00\r\n"},
        {8, 99, {100, 101, 100, 99}, "JOB=99\r\nSPH=1.00\r\nCYL=1.01\r\nAX=100\r\nCTHICK=0.99\r\n"},
        {16, 100, {10, 65536 - 10, 10, 1000}, "JOB=100\r\nSPH=0.10\r\nCYL=-0.10\r\nAX=10\r\nCTHICK=10.00\r\n"},
        {1, 1, {1, 0, 1, 0}, "JOB=1\r\nSPH=-0.01\r\nCYL=0.00\r\nAX=-1\r\nCTHICK=0.00\r\n"},
        {1, 1, {0, 1, 0, 1}, "JOB=1\r\nSPH=0.00\r\nCYL=-0.01\r\nAX=0\r\nCTHICK=-0.01\r\n"},
        {64, UINT64_MAX, {UINT64_MAX, UINT64_MAX, UINT64_MAX, UINT64_MAX},
         "JOB=18446744073709551615\r\nSPH=-0.01\r\nCYL=-0.01\r\nAX=-1\r\nCTHICK=-0.01\r\n"},
        {64, UINT64_C(1) << 63, {INT64_MAX, 1, INT64_MAX, 9},
         "JOB=9223372036854775808\r\nSPH=92233720368547758.07\r\nCYL=0.01\r\nAX=9223372036854775807\r\nCTHICK=0.09\r\n"},
        {64, UINT64_MAX, {UINT64_C(1) << 63, UINT64_C(1) << 63, UINT64_C(1) << 63, UINT64_C(1) << 63},
         "JOB=18446744073709551615\r\nSPH=-92233720368547758.08\r\nCYL=-92233720368547758.08\r\nAX=-9223372036854775808\r\n"
         "CTHICK=-92233720368547758.08\r\n"}};
    size_t i;
    for (i = 0; i < COUNT(known); i++) one_job(__LINE__, known[i].k, known[i].number, known[i].words, known[i].text, strlen(known[i].text));
    check(strlen(known[i - 1].text) == TEXT_MOST, __LINE__, "the longest text");
}

static void text_ranges(void) {
    static const struct {
        uint64_t k;
        const char *least, *most, *below, *above, *least_whole, *most_whole, *below_whole, *above_whole;
    } ranges[] = {
        {1, "-0.01", "0.00", "-0.02", "0.01", "-1", "0", "-2", "1"},
        {2, "-0.02", "0.01", "-0.03", "0.02", "-2", "1", "-3", "2"},
        {8, "-1.28", "1.27", "-1.29", "1.28", "-128", "127", "-129", "128"},
        {16, "-327.68", "327.67", "-327.69", "327.68", "-32768", "32767", "-32769", "32768"},
        {63, "-46116860184273879.04", "46116860184273879.03", "-46116860184273879.05", "46116860184273879.04", "-4611686018427387904",
         "4611686018427387903", "-4611686018427387905", "4611686018427387904"},
        {64, "-92233720368547758.08", "92233720368547758.07", "-92233720368547758.09", "92233720368547758.08", "-9223372036854775808",
         "9223372036854775807", "-9223372036854775809", "9223372036854775808"}};
    size_t i, at;
    for (i = 0; i < COUNT(ranges); i++) {
        const uint64_t k = ranges[i].k, high = UINT64_C(1) << (k - 1);
        for (at = 1; at < 5; at++) {
            const char *value[5] = {"7", "0.00", "0.00", "0", "0.00"};
            uint64_t w[4] = {0, 0, 0, 0};
            w[at - 1] = high;
            value[at] = at == 3 ? ranges[i].least_whole : ranges[i].least;
            one_job(__LINE__, k, 7, w, text, lines(labels, value, ends));
            w[at - 1] = high - 1;
            value[at] = at == 3 ? ranges[i].most_whole : ranges[i].most;
            one_job(__LINE__, k, 7, w, text, lines(labels, value, ends));
            value[at] = at == 3 ? ranges[i].below_whole : ranges[i].below;
            no_text(__LINE__, k, lines(labels, value, ends));
            value[at] = at == 3 ? ranges[i].above_whole : ranges[i].above;
            no_text(__LINE__, k, lines(labels, value, ends));
        }
    }
}

/* Every word of 11 bits in every line; and numbers and values of both signs next to the powers of ten, where a digit more is needed. */
static void text_values(void) {
    char right[2 * TEXT_MOST];
    uint64_t w[4], power = 1;
    size_t i, j, n;
    for (i = 0; i < 2048; i++) {
        for (j = 0; j < 4; j++) w[j] = (i + 512 * j) % 2048;
        n = text_of(right, 11, i, w);
        one_job(__LINE__, 11, i, w, right, n);
    }
    for (i = 0; i < 20; i++, power *= 10) {
        for (j = 0; j < 6; j++) {
            const uint64_t v = power + j % 3 - 1, small = v > INT64_MAX ? 0 : v;
            w[0] = w[1] = w[2] = w[3] = j < 3 ? small : 0 - small;
            n = text_of(right, 64, v, w);
            one_job(__LINE__, 64, v, w, right, n);
        }
    }
}

/* Jobs of every width, as the C library prints them: drawn words, small ones of both signs, and the ends. A text of 64 bits is read in every width,
 * where it may be no text. */
static void drawn_texts(void) {
    char right[2 * TEXT_MOST];
    uint64_t k, w[4];
    size_t i, j, n;
    for (k = 1; k <= 64; k++) {
        const uint64_t mask = UINT64_MAX >> (64 - k), high = UINT64_C(1) << (k - 1);
        for (i = 0; i < 24; i++) {
            const uint64_t number = draw() >> (draw() >> 58);
            for (j = 0; j < 4; j++) {
                const uint64_t drawn = draw() >> (64 - k), small = drawn >> (draw() >> 32) % k;
                const uint64_t choices[6] = {drawn, small, (0 - small) & mask, high, high - 1, mask};
                w[j] = choices[(draw() >> 32) % 6];
            }
            n = text_of(right, k, number, w);
            one_job(__LINE__, k, number, w, right, n);
        }
        for (i = 0; i < 24; i++) {
            for (j = 0; j < 4; j++) {
                const uint64_t near = high + (draw() >> 62) - 2;
                w[j] = (draw() >> 63 ? near : 0 - near) & (i % 4 == j || i >= 20 ? UINT64_MAX : high - 1);
            }
            n = text_of(right, 64, draw(), w);
            reads(__LINE__, k, (const uint8_t *)right, n);
        }
    }
}

/* One value, label or end of the example replaced by each of these, in the lines from `from` to `to`. */
enum { LABEL, VALUE, END };
static void replaced(int line, int what, size_t from, size_t to, const char *const *by, size_t n) {
    size_t at, i;
    for (at = from; at <= to; at++) {
        for (i = 0; i < n; i++) {
            const char *parts[3][5];
            memcpy(parts[LABEL], labels, sizeof labels);
            memcpy(parts[VALUE], values, sizeof values);
            memcpy(parts[END], ends, sizeof ends);
            parts[what][at] = by[i];
            no_text(line, 16, lines(parts[LABEL], parts[VALUE], parts[END]));
        }
    }
}

/* Text that a hurried reader would take: numbers in another form, out of their range by one or by a power of two, other labels and other ends. */
static void near_misses(void) {
    static const char *const whole[] = {
        "", "-", "-0", "+90", "+0", "090", "00", "-090", "-00", "--9", "90.", "90.0", "90.00", "0.90", ".", " 90", "90 ", "9 0", "- 9", "9-", "9-0",
        "0x5a", "9e1", "9,0", "90\t", "a", "9a", "/9", ":9", "9/", "9:", "\r", "90\r", "90\n"};
    static const char *const unsigned_numbers[] = {
        "-1", "-10", "18446744073709551616", "18446744073709551617", "18446744073709551626", "18446744073709551625", "20000000000000000000",
        "36893488147419103242", "99999999999999999999", "100000000000000000000", "184467440737095516150", "340282366920938463463374607431768211466",
        "018446744073709551615"};
    static const char *const axes[] = {
        "32768", "-32769", "65535", "65536", "65626", "-65446", "4294967386", "18446744073709551615", "18446744073709551616", "18446744073709551706",
        "-18446744073709551526", "100000", "-100000", "9999999999999999999999"};
    static const char *const hundredths[] = {
        "", "-", ".", "-.", "0", "-0", "1", "-3", "1.", "-1.", "1.5", "-0.5", "0.0", "-0.0", "-0.00", "+1.00", "+0.00", "01.00", "-01.00", "00.50",
        "-00.50", "00.00", ".50", "-.50", "1.500", "1.000", "1.255", "-0.000", "1,25", "1.2.5", "1..25", "1.-25", "--1.25", "-+1.25", "1.25-",
        "1.+5", "1.2-", "- 1.25", " 1.25", "1 .25", "1. 25", "1.2 ", "1. 2", "1.25 ", "1.25\t", "1:25", "1.2a", "1.a2", "a.25", "/.25", ":.25",
        "1./5", "1.:5", "1.2/", "1.2:", "125", "1.25e1", "0x1.25", "1.25D", "1.25\r", "1.25\n", "1\r\n.25", "nan", "?",
        /* beyond the range by one; the words as unsigned; and a right value more or less by 2^16, 2^32 and 2^64 */
        "327.68", "-327.69", "652.11", "655.35", "655.36", "655.86", "-654.86", "-658.61", "42949672.96", "42949673.46", "184467440737095516.16",
        "184467440737095516.66", "-184467440737095515.66", "184467440737095512.91", "1000.00", "-1000.00", "100000000000000000000000000000.00"};
    static const char *const other_labels[] = {
        "", "=", "JOB", "JOB:", "JOB==", "job=", "Job=", "JOb=", " JOB=", "JOB =", "JOB= ", "\tJOB=", "JOB=\"", "SPH", "SPH:", "sph=", "Sph=",
        "SPH =", " SPH=", "SPH= ", "SPHERE=", "SP=", "LSPH=", "SPH=R;", "CYL", "cyl=", "CYl=", "CYL =", "CY=", "AX", "ax=", "Ax=", "AX =", "A=",
        "AXIS=", "X=", "CTHICK", "cthick=", "CThick=", "CTHICK =", "CTHIC=", "THICK=", "THK=", "CTHICKNESS=", "CTHICK;", "\r\nJOB=", "\r\nSPH=",
        "\r\nCYL=", "\r\nAX=", "\r\nCTHICK=", "\xef\xbb\xbf" "JOB="};
    static const char *const other_ends[] = {
        "", "\n", "\r", "\n\r", "\r\r\n", "\r\n\n", "\r\n\r", "\r\n\r\n", " \r\n", "\r\n ", "\r \n", "\t\r\n", ";\r\n", "0\n", "\n\n", "\r\r",
        "\x0b\n", "\r\x0b", "\x85", "\\r\\n", "\r\nLNAM=\r\n", "\r\nJOB=10\r\n", "\r\nCTHICK=2.18\r\n"};

    replaced(__LINE__, VALUE, 0, 0, whole, COUNT(whole));
    replaced(__LINE__, VALUE, 0, 0, unsigned_numbers, COUNT(unsigned_numbers));
    replaced(__LINE__, VALUE, 3, 3, whole, COUNT(whole));
    replaced(__LINE__, VALUE, 3, 3, axes, COUNT(axes));
    replaced(__LINE__, VALUE, 1, 2, hundredths, COUNT(hundredths));
    replaced(__LINE__, VALUE, 4, 4, hundredths, COUNT(hundredths));
    replaced(__LINE__, LABEL, 0, 4, other_labels, COUNT(other_labels));
    replaced(__LINE__, LABEL, 1, 4, labels, 1);
    replaced(__LINE__, LABEL, 0, 3, labels + 4, 1);
    replaced(__LINE__, END, 0, 4, other_ends, COUNT(other_ends));
}

/* The five lines in every order, and once less, and once more. */
static void text_lines(void) {
    const char *label[5], *value[5];
    size_t i, j, n;
    for (i = 0; i < 3125; i++) {
        for (j = 0, n = i; j < 5; j++, n /= 5) label[j] = labels[n % 5], value[j] = values[n % 5];
        n = lines(label, value, ends);
        reads(__LINE__, 16, text, n);
    }
    for (i = 0; i < 5; i++) {
        n = 0;
        for (j = 0; j < 5; j++) n += i == j ? 0 : (size_t)sprintf((char *)text + n, "%s%s\r\n", labels[j], values[j]);
        no_text(__LINE__, 16, n);
        n = 0;
        for (j = 0; j < 10; j++) n += j % 2 == 1 && i != j / 2 ? 0 : (size_t)sprintf((char *)text + n, "%s%s\r\n", labels[j / 2], values[j / 2]);
        no_text(__LINE__, 16, n);
    }
}

/* Every beginning of a text, and every end; a byte changed, put between, or left out, at every place. */
static void text_bytes(uint64_t k, const char *right) {
    static const uint8_t other[] = "0123456789-+.,= \t\r\n/:;JOBobSAXC\0\x7f\x80\xff";
    const size_t n = strlen(right);
    size_t i, j;
    for (i = 0; i < n; i++) {
        /* the bytes after the last one that is lent would make it a text */
        DECLINES(YIKES_TEXT, yikes_read_text(k, 4, 15, 4, (const uint8_t *)right, i, SECOND, JOB));
        if (i != 0) DECLINES(YIKES_TEXT, yikes_read_text(k, 4, 15, 4, (const uint8_t *)right + i, n - i, SECOND, JOB));
        memcpy(text, right, i);
        memcpy(text + i, right + i + 1, n - i - 1);
        reads(__LINE__, k, text, n - 1);
    }
    for (i = 0; i <= n; i++) {
        for (j = 0; j < COUNT(other); j++) {
            memcpy(text, right, i);
            text[i] = other[j];
            memcpy(text + i + 1, right + i, n - i);
            reads(__LINE__, k, text, n + 1);
            memcpy(text, right, n);
            text[i] = other[j];
            if (i < n) reads(__LINE__, k, text, n);
        }
    }
    for (j = 0; j < 256; j++) {
        memcpy(text, right, n);
        text[n] = (uint8_t)j;
        no_text(__LINE__, k, n + 1);
    }
}

/* Text that is very long, in the number of its lines and in one number of it. */
static void long_texts(void) {
    static char digits[6001];
    const char *value[5];
    size_t i, n;
    for (i = 0; i < 60; i++) memcpy(text + i * EXAMPLE, example, EXAMPLE);
    for (n = EXAMPLE + 1; n <= 60 * EXAMPLE; n += 7) no_text(__LINE__, 16, n);
    no_text(__LINE__, 16, 60 * EXAMPLE);
    for (i = 0; i < 20; i++) {
        memset(digits, '0' + (int)i % 4, sizeof digits - 1);
        /* leading zeros or ones before the right digits, and digits after the point */
        if (i < 10) memcpy(digits + sizeof digits - 5, i % 5 == 0 || i % 5 == 3 ? "0010" : "2.18", 4);
        else digits[1] = '.';
        memcpy(value, values, sizeof values);
        value[i % 5] = digits;
        no_text(__LINE__, 16, lines(labels, value, ends));
    }
}

/* Books that have no text: one number is out of its range, or d is another. Some are right where only their low bits are looked at. */
static const struct {
    uint64_t k;
    size_t d, n, t;
} textless[] = {
    {0, 4, 15, 4},   {65, 4, 15, 4},   {272, 4, 15, 4},  {UINT64_C(16) << 32 | 16, 4, 15, 4},  {UINT64_MAX, 4, 15, 4},
    {16, 4, 0, 0},   {16, 4, 16, 4},   {16, 4, 31, 4},   {16, 4, 271, 4},                      {16, 4, SIZE_MAX, 4},
    {16, 4, 15, 15}, {16, 4, 15, 16},  {16, 4, 1, 1},    {16, 4, 15, 260},                     {16, 4, 15, SIZE_MAX},
    {16, 2, 3, 1},   {16, 3, 7, 4},    {16, 3, 3, 1},    {16, 5, 15, 4},                       {16, 5, 31, 4},
    {16, 6, 15, 4},  {16, 6, 63, 20},  {16, 0, 15, 4},   {16, 1, 1, 0},                        {16, 7, 15, 4},
    {16, 8, 15, 4},  {16, 260, 15, 4}, {16, SIZE_MAX, 15, 4}, {64, 2, 3, 0},                   {0, 0, 0, 0},
};

/* 1 before all else, in each call; and every book with d 4 has the same text. */
static void text_books(void) {
    const uint64_t wide[6] = {65536, UINT64_MAX, 0, 0, 0, 0};
    const uint8_t *right = (const uint8_t *)example;
    const uint64_t size = EXAMPLE, number = 10;
    size_t i, n, t;
    for (i = 0; i < COUNT(textless); i++) {
        const uint64_t k = textless[i].k;
        const size_t d = textless[i].d;
        n = textless[i].n, t = textless[i].t;
        DECLINES(YIKES_PARAMETERS, yikes_text_size(k, d, n, t, 10, lens_job, 4, SECOND));
        DECLINES(YIKES_PARAMETERS, yikes_text_size(k, d, n, t, 10, lens_job, d < 7 ? d : 7, SECOND));
        DECLINES(YIKES_PARAMETERS, yikes_text_size(k, d, n, t, 10, wide, 4, SECOND));
        DECLINES(YIKES_PARAMETERS, yikes_text_size(k, d, n, t, 10, wide, 5, o.second, 2));
        DECLINES(YIKES_PARAMETERS, yikes_text_size(k, d, n, t, UINT64_MAX, NULL, 0, NULL, 0));
        DECLINES(YIKES_PARAMETERS, yikes_write_text(k, d, n, t, 10, lens_job, 4, o.bytes, EXAMPLE));
        DECLINES(YIKES_PARAMETERS, yikes_write_text(k, d, n, t, 10, lens_job, d < 7 ? d : 7, o.bytes, EXAMPLE));
        DECLINES(YIKES_PARAMETERS, yikes_write_text(k, d, n, t, 10, wide, 4, o.bytes, EXAMPLE));
        DECLINES(YIKES_PARAMETERS, yikes_write_text(k, d, n, t, 10, wide, HUGE_LENGTH, o.bytes, HUGE_LENGTH));
        DECLINES(YIKES_PARAMETERS, yikes_write_text(k, d, n, t, UINT64_MAX, NULL, 0, NULL, 0));
        DECLINES(YIKES_PARAMETERS, yikes_read_text(k, d, n, t, right, EXAMPLE, SECOND, JOB));
        DECLINES(YIKES_PARAMETERS, yikes_read_text(k, d, n, t, right, EXAMPLE, SECOND, o.words, d < 7 ? d : 7));
        DECLINES(YIKES_PARAMETERS, yikes_read_text(k, d, n, t, right, EXAMPLE - 1, o.second, 2, o.words, 5));
        DECLINES(YIKES_PARAMETERS, yikes_read_text(k, d, n, t, NULL, 0, NULL, 0, NULL, 0));
    }
    for (n = 1; n <= 15; n++) {
        for (t = 0; t < n; t++) {
            GIVES(yikes_text_size(16, 4, n, t, 10, lens_job, 4, SECOND), now_holds(NULL, 0, &size, 1));
            GIVES(yikes_write_text(16, 4, n, t, 10, lens_job, 4, o.bytes, EXAMPLE), now_bytes(example, EXAMPLE));
            GIVES(yikes_read_text(16, 4, n, t, right, EXAMPLE, SECOND, JOB), now_holds(lens_job, 4, &number, 1));
        }
    }
}

/* 2 for a list of words before 3, and 2 for the text after it; 2 before 11. */
static void text_orders(void) {
    const size_t lengths[] = {0, 1, 2, 3, 5, 6, 8, HUGE_LENGTH}, ones[] = {0, 2, 3, 4, HUGE_LENGTH};
    const size_t outs[] = {0, 1, 45, EXAMPLE - 1, EXAMPLE + 1, TEXT_MOST, 8192, HUGE_LENGTH};
    const uint64_t wide[8] = {0, 0, 0, 65536, 65536, 65536, 65536, 65536};
    const uint8_t *right = (const uint8_t *)example;
    size_t i, j;
    for (i = 0; i < COUNT(lengths); i++) {
        DECLINES(YIKES_LENGTH, yikes_text_size(LABS, 10, lens_job, lengths[i], SECOND));
        DECLINES(YIKES_LENGTH, yikes_text_size(LABS, 10, wide, lengths[i], SECOND));
        DECLINES(YIKES_LENGTH, yikes_write_text(LABS, 10, lens_job, lengths[i], o.bytes, EXAMPLE));
        DECLINES(YIKES_LENGTH, yikes_write_text(LABS, 10, wide, lengths[i], o.bytes, EXAMPLE));
        DECLINES(YIKES_LENGTH, yikes_write_text(LABS, 10, wide, lengths[i], NULL, 0));
        DECLINES(YIKES_LENGTH, yikes_read_text(LABS, right, EXAMPLE, SECOND, o.words, lengths[i]));
        DECLINES(YIKES_LENGTH, yikes_read_text(LABS, right, EXAMPLE - 1, SECOND, o.words, lengths[i]));
        DECLINES(YIKES_LENGTH, yikes_read_text(LABS, NULL, 0, SECOND, o.words, lengths[i]));
    }
    for (i = 0; i < COUNT(ones); i++) {
        DECLINES(YIKES_LENGTH, yikes_text_size(LABS, 10, lens_job, 4, o.second, ones[i]));
        DECLINES(YIKES_LENGTH, yikes_text_size(LABS, 10, wide, 4, o.second, ones[i]));
        DECLINES(YIKES_LENGTH, yikes_read_text(LABS, right, EXAMPLE, o.second, ones[i], JOB));
        DECLINES(YIKES_LENGTH, yikes_read_text(LABS, right, EXAMPLE - 1, o.second, ones[i], JOB));
        DECLINES(YIKES_LENGTH, yikes_read_text(LABS, NULL, 0, o.second, ones[i], JOB));
    }
    DECLINES(YIKES_LENGTH, yikes_text_size(LABS, 10, NULL, 0, SECOND));
    DECLINES(YIKES_LENGTH, yikes_text_size(LABS, 10, wide, 4, NULL, 0));
    DECLINES(YIKES_LENGTH, yikes_write_text(LABS, 10, NULL, 0, o.bytes, EXAMPLE));
    DECLINES(YIKES_LENGTH, yikes_write_text(LABS, 10, lens_job, 4, NULL, 0));
    DECLINES(YIKES_LENGTH, yikes_read_text(LABS, right, EXAMPLE, NULL, 0, JOB));
    DECLINES(YIKES_LENGTH, yikes_read_text(LABS, NULL, 0, SECOND, NULL, 0));
    DECLINES(YIKES_TEXT, yikes_read_text(LABS, NULL, 0, SECOND, JOB));
    for (i = 0; i < COUNT(outs); i++) {
        DECLINES(YIKES_LENGTH, yikes_write_text(LABS, 10, lens_job, 4, o.bytes, outs[i]));
        for (j = 0; j < 4; j++) {
            uint64_t w[4];
            memcpy(w, lens_job, sizeof w);
            w[j] = 65536;
            DECLINES(YIKES_WIDE_WORD, yikes_write_text(LABS, 10, w, 4, o.bytes, outs[i]));
        }
    }
    DECLINES(YIKES_WIDE_WORD, yikes_write_text(LABS, 10, wide, 4, NULL, 0));
}

/* A wide word in each place, just above the width and far above it. */
static void text_widths(void) {
    const uint64_t small[6] = {1, 2, 8, 16, 32, 63};
    uint64_t w[4];
    size_t i, j, n;
    for (i = 0; i < COUNT(small); i++) {
        const uint64_t k = small[i], above[3] = {UINT64_C(1) << k, UINT64_C(1) << 63, UINT64_MAX};
        for (j = 0; j < 12; j++) {
            memset(w, 0, sizeof w);
            n = text_of((char *)text, k, 7, w);
            w[j / 3] = above[j % 3];
            DECLINES(YIKES_WIDE_WORD, yikes_text_size(k, 4, 15, 4, 7, w, 4, SECOND));
            DECLINES(YIKES_WIDE_WORD, yikes_write_text(k, 4, 15, 4, 7, w, 4, o.bytes, n));
            DECLINES(YIKES_WIDE_WORD, yikes_write_text(k, 4, 15, 4, 7, w, 4, o.bytes, n + 1));
        }
    }
}

int main(void) {
    elements();
    sharing();
    lowest_bits();
    largest(64);
    largest(63);
    largest(8);
    readings();
    writing();
    faults();
    describing();
    lone_files();
    reading();
    openings();
    adding();
    adding_many(64);
    adding_many(63);
    adding_many(8);
    mending();
    mending_largest(64);
    mending_largest(63);
    mending_largest(8);
    desk_faults();
    desk_orders();
    desks();
    desks_largest(64);
    desks_largest(63);
    desks_largest(8);
    texts();
    text_ranges();
    text_values();
    drawn_texts();
    near_misses();
    text_lines();
    text_bytes(16, example);
    text_bytes(1, "JOB=0\r\nSPH=0.00\r\nCYL=-0.01\r\nAX=-1\r\nCTHICK=0.00\r\n");
    text_bytes(64, "JOB=18446744073709551615\r\nSPH=-92233720368547758.08\r\nCYL=92233720368547758.07\r\nAX=-9223372036854775808\r\nCTHICK=1.00\r\n");
    long_texts();
    text_books();
    text_orders();
    text_widths();
    printf("%lu checks%s\n", checks, failures == 0 ? "" : ", of which some failed");
    return failures == 0 ? 0 : 1;
}
