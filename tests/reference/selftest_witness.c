/* The witness of an overlap: worked by hand, and on random tables held to the
 * plain definitions by trying settings and leaves. */
#include "selftest.h"

#include <inttypes.h>
#include <stdio.h>
#include <stdlib.h>

#define BIT(i) (UINT64_C(1) << ((i) - 1))

static bool same_witness(struct ref_witness a, struct ref_witness b)
{
    return a.number == b.number && a.place == b.place
        && a.earlier == b.earlier && a.state == b.state
        && a.inputs_on == b.inputs_on && a.inputs_off == b.inputs_off
        && a.timers_on == b.timers_on && a.timers_off == b.timers_off;
}

void expect_witness(const struct ref_tables *t, struct ref_witness due,
                    const char *file, int line)
{
    struct ref_tables e = exact(t);
    struct ref_witness w = ref_check_witness(&e);
    bool good = same_witness(w, due);
    if (!good)
        printf("  got %" PRIu32 " at %" PRIu64 ", earlier %" PRIu64 ", state %"
               PRIu64 ", inputs %" PRIx64 " and %" PRIx64 ", timers %" PRIx64
               " and %" PRIx64 "\n", w.number, w.place, w.earlier, w.state,
               w.inputs_on, w.inputs_off, w.timers_on, w.timers_off);
    expect_at(good, "the witness", file, line);
    exact_free(&e);
}

/* ---- By hand ---- */

/* The states of (e), all inputs, and all timers running everywhere. */
static struct draft *still(void)
{
    struct draft *d = chart_e();
    d->t.moves_len = 0;
    d->t.inputs = 64;
    for (unsigned n = 1; n <= 32; n++) {
        draft_preset(d, 100);
        draft_timer_pair(d, n, 0);
    }
    return d;
}

/* Two moves in states 1 and 3 (below 1); what is given is all that is due. */
#define PAIR(a, b, ...) \
    do { \
        struct draft *d = still(); \
        draft_move_row(d, (const int16_t[11])a); \
        draft_move_row(d, (const int16_t[11])b); \
        EXPECT_WITNESS(&d->t, __VA_ARGS__); \
        free(d); \
    } while (0)
#define IN_1(...) {1, 2, 0, __VA_ARGS__}
#define IN_3(...) {3, 4, 0, __VA_ARGS__}
#define OVERLAP_AT_3 .number = REF_OVERLAP, .place = 1, .state = 3

static void test_pairs(void)
{
    /* (g), and the other way round: the lower source is 3 in both */
    PAIR(IN_1(2), IN_3(1), OVERLAP_AT_3, .inputs_on = BIT(1) | BIT(2));
    PAIR(IN_3(1), IN_1(2), OVERLAP_AT_3, .inputs_on = BIT(1) | BIT(2));
    PAIR(IN_1(-1), IN_3(-2), OVERLAP_AT_3, .inputs_off = BIT(1) | BIT(2));
    PAIR(IN_1(1, -3), IN_3(2), OVERLAP_AT_3, .inputs_on = BIT(1) | BIT(2),
         .inputs_off = BIT(3));
    PAIR(IN_1(2), IN_3(1, -3), OVERLAP_AT_3, .inputs_on = BIT(1) | BIT(2),
         .inputs_off = BIT(3));
    PAIR(IN_3(5), IN_3(5), OVERLAP_AT_3, .inputs_on = BIT(5));
    PAIR(IN_1(5), IN_1(6), .number = REF_OVERLAP, .place = 1, .state = 1,
         .inputs_on = BIT(5) | BIT(6));
    /* "No literals means always." */
    PAIR(IN_1(0), IN_3(0), OVERLAP_AT_3);
    PAIR(IN_1(0), IN_3(4, -101), OVERLAP_AT_3, .inputs_on = BIT(4),
         .timers_off = BIT(1));
    PAIR(IN_1(-7, 103), IN_3(0), OVERLAP_AT_3, .inputs_off = BIT(7),
         .timers_on = BIT(3));
    /* a clash either way, and in the last place */
    PAIR(IN_1(1), IN_3(-1), .number = 0);
    PAIR(IN_1(-1), IN_3(1), .number = 0);
    PAIR(IN_1(101), IN_3(-101), .number = 0);
    PAIR(IN_1(-101), IN_3(101), .number = 0);
    PAIR(IN_1(1, 2, 3, 4, 5, 6, 7, 8), IN_3(-9, 1, 2, 3, 4, 5, 6, -8),
         .number = 0);
    PAIR(IN_1(1, 2, 3, 4, 5, 6, 7, 8), IN_3(9, -10, 11, -12, 13, 14, 15, 116),
         OVERLAP_AT_3, .inputs_on = 0xFF | BIT(9) | BIT(11) | BIT(13) | BIT(14)
         | BIT(15), .inputs_off = BIT(10) | BIT(12), .timers_on = BIT(16));
}

static void test_timers(void)
{
    /* a timer is no input of its number, and no other timer */
    PAIR(IN_1(101), IN_3(-1), OVERLAP_AT_3, .timers_on = BIT(1),
         .inputs_off = BIT(1));
    PAIR(IN_1(101), IN_3(-102), OVERLAP_AT_3, .timers_on = BIT(1),
         .timers_off = BIT(2));
    /* the greatest of each kind */
    PAIR(IN_1(64, -131), IN_3(132, -63), OVERLAP_AT_3, .inputs_on = BIT(64),
         .inputs_off = BIT(63), .timers_on = BIT(32), .timers_off = BIT(31));
    PAIR(IN_1(64), IN_3(-64), .number = 0);
    PAIR(IN_1(-132), IN_3(132), .number = 0);
}

static void test_which_moves(void)
{
    struct draft *d = still();
    DRAFT_MOVE(d, 2, 1, 0);        /* neither above 3 nor below */
    DRAFT_MOVE(d, 4, 1, 0, 3);     /* beside 3 */
    DRAFT_MOVE(d, 3, 4, 0, 1, -3); /* clashes */
    DRAFT_MOVE(d, 3, 4, 0, -1, 2);
    DRAFT_MOVE(d, 3, 4, 0, -1, -2, 3);
    EXPECT_WITNESS(&d->t, .number = 0);
    DRAFT_MOVE(d, 3, 2, 0, 3, 4);  /* overlaps 3 and 4: the least is told */
    EXPECT_WITNESS(&d->t, .number = REF_OVERLAP, .place = 5, .earlier = 3,
                   .state = 3, .inputs_on = BIT(2) | BIT(3) | BIT(4),
                   .inputs_off = BIT(1));
    DRAFT_MOVE(d, 0, 2, 0);        /* overlaps all, but later */
    EXPECT_WITNESS(&d->t, .number = REF_OVERLAP, .place = 5, .earlier = 3,
                   .state = 3, .inputs_on = BIT(2) | BIT(3) | BIT(4),
                   .inputs_off = BIT(1));
    d->t.moves_len = 2 * 11;
    DRAFT_MOVE(d, 0, 2, 0, 5);     /* above all */
    EXPECT_WITNESS(&d->t, .number = REF_OVERLAP, .place = 2, .earlier = 0,
                   .state = 2, .inputs_on = BIT(5));
    free(d);
}

/* Nothing beside number and place for the other refusals, overlap or not. */
static void test_others(void)
{
    struct draft *d = chart_e();
    EXPECT_WITNESS(&d->t, .number = 0);
    DRAFT_MOVE(d, 3, 4, 0, 1); /* overlaps move 0 */
    EXPECT_WITNESS(&d->t, .number = REF_OVERLAP, .place = 3, .state = 3,
                   .inputs_on = BIT(1), .inputs_off = BIT(2));
    draft_preset(d, 100); /* that nothing runs */
    DRAFT_MOVE(d, 2, 1, 0, 2, 101);
    EXPECT_WITNESS(&d->t, .number = REF_IDLE_TIMER, .place = 4);
    DRAFT_MOVE(d, 2, 1, 0, -32768);
    EXPECT_WITNESS(&d->t, .number = REF_LITERAL, .place = 5);
    DRAFT_MOVE(d, 2, 5, 0);
    EXPECT_WITNESS(&d->t, .number = REF_MOVE, .place = 6);
    d->t.moves_len -= 1;
    EXPECT_WITNESS(&d->t, .number = REF_SIZE);
    free(d);
    d = draft_new(1, 0, 0);
    for (unsigned s = 0; s < 256; s++)
        draft_state(d, s == 0 ? 0 : (s - 1) / 3, s < 85 ? 3 * s + 1 : 0);
    DRAFT_MOVE(d, 255, 0, 0);
    EXPECT_WITNESS(&d->t, .number = REF_FLIP_FLOPS);
    DRAFT_MOVE(d, 0, 0, 0); /* "more than 128" comes after */
    EXPECT_WITNESS(&d->t, .number = REF_OVERLAP, .place = 1, .state = 255);
    free(d);
}

/* ---- Random tables ---- */

static unsigned seen_narrow, seen_wide, seen_later_first;

static const int16_t *row_of(const struct draft *d, uint64_t move)
{
    return d->moves + 11 * move;
}

/* Both are on the path to a leaf exactly when the leaf is at or below the state,
 * and there is such a leaf. */
static void expect_state(const struct draft *d, struct ref_witness w)
{
    unsigned a = (unsigned)row_of(d, w.earlier)[0], leaves = 0;
    unsigned b = (unsigned)row_of(d, w.place)[0];
    for (unsigned s = 0; s < d->t.states_len / 2; s++) {
        if (!is_leaf(d, s))
            continue;
        bool both = at_or_above(d, a, s) && at_or_above(d, b, s);
        EXPECT(both == at_or_above(d, (unsigned)w.state, s));
        leaves += both;
    }
    EXPECT(leaves > 0 && (w.state == a || w.state == b));
    EXPECT(w.state >= a && w.state >= b);
}

static bool both_hold(const struct draft *d, struct ref_witness w,
                      uint64_t inputs, uint64_t timers)
{
    return holds(row_of(d, w.earlier), inputs, timers)
        && holds(row_of(d, w.place), inputs, timers);
}

/* Number and place are the check's, and a refusal of another kind tells no
 * more. */
static bool is_overlap(const struct draft *d, struct ref_witness w)
{
    struct ref_answer a = ref_check(&d->t);
    EXPECT(w.number == a.number && w.place == a.place);
    if (w.number != REF_OVERLAP)
        EXPECT_WITNESS(&d->t, .number = a.number, .place = a.place);
    return w.number == REF_OVERLAP;
}

/* Few inputs and timers: every setting, and every earlier move. */
static void expect_narrow(const struct draft *d, struct ref_witness w)
{
    for (uint64_t inputs = 0; inputs < 64; inputs++)
        for (uint64_t timers = 0; timers < 8; timers++)
            EXPECT(both_hold(d, w, inputs, timers)
                   == ((inputs & w.inputs_on) == w.inputs_on
                       && (inputs & w.inputs_off) == 0
                       && (timers & w.timers_on) == w.timers_on
                       && (timers & w.timers_off) == 0));
    for (uint64_t e = 0; e < w.earlier; e++)
        EXPECT(!overlap(d, row_of(d, e), row_of(d, w.place)));
    EXPECT(overlap(d, row_of(d, w.earlier), row_of(d, w.place)));
}

/* Many: whatever the others are, the setting makes both hold, and no part of it
 * can be left out. */
static void expect_wide(const struct draft *d, struct ref_witness w)
{
    for (int r = 0; r < 20; r++)
        EXPECT(both_hold(d, w, (any64() | w.inputs_on) & ~w.inputs_off,
                         (any64() | w.timers_on) & ~w.timers_off));
    for (unsigned i = 1; i <= 64; i++) {
        if ((w.inputs_on | w.inputs_off) & BIT(i))
            EXPECT(!both_hold(d, w, w.inputs_on ^ BIT(i), w.timers_on));
        if ((w.timers_on | w.timers_off) & BIT(i))
            EXPECT(!both_hold(d, w, w.inputs_on, w.timers_on ^ BIT(i)));
    }
}

static void test_narrow(void)
{
    for (int r = 0; r < 4000; r++) {
        unsigned n = 1 + below(9);
        struct draft *d = any_frame(n);
        for (unsigned moves = below(9); moves > 0; moves--) {
            any_move(d, n, below(3));
            d->moves[d->t.moves_len - 11 + 2] = 0; /* no MOVE */
        }
        struct ref_witness w = ref_check_witness(&d->t);
        if (is_overlap(d, w)) {
            expect_state(d, w);
            expect_narrow(d, w);
            seen_narrow++;
            seen_later_first += w.earlier > 0;
        }
        free(d);
    }
}

/* All inputs, and timers that run everywhere, so that none is idle. */
static struct draft *any_wide(void)
{
    struct draft *d = still();
    for (unsigned moves = 2 + below(4); moves > 0; moves--) {
        int16_t row[11] = {(int16_t)below(5), (int16_t)below(5)};
        uint64_t used[2] = {0, 0};
        for (unsigned k = 3, end = 3 + below(9); k < end;) {
            unsigned timer = below(2), i = 1 + below(timer ? 32 : 64);
            if (used[timer] & BIT(i))
                continue;
            used[timer] |= BIT(i);
            row[k++] = (int16_t)((timer ? 100 + (int)i : (int)i)
                                 * (once_in(2) ? 1 : -1));
        }
        draft_move_row(d, row);
    }
    return d;
}

static void test_wide(void)
{
    for (int r = 0; r < 4000; r++) {
        struct draft *d = any_wide();
        struct ref_witness w = ref_check_witness(&d->t);
        if (is_overlap(d, w)) {
            expect_state(d, w);
            expect_wide(d, w);
            seen_wide++;
        }
        free(d);
    }
}

void test_witness(void)
{
    test_pairs();
    test_timers();
    test_which_moves();
    test_others();
    test_narrow();
    test_wide();
    EXPECT(seen_narrow > 500 && seen_wide > 500 && seen_later_first > 100);
    printf("witnesses: %u tried in every setting (%u of an earlier move other "
           "than the first), %u of many inputs\n", seen_narrow,
           seen_later_first, seen_wide);
}
