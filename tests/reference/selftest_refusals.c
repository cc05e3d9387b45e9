/* Every refusal at row 0 and at a later row, and both sides of every limit. */
#include "selftest.h"

#include <stdlib.h>
#include <string.h>

/* A chart to break: two levels, two timers, two outputs, four moves. */
static struct draft *sound(void)
{
    struct draft *d = draft_new(10, 4, 2);
    draft_state(d, 0, 1);
    draft_state(d, 0, 3);
    draft_state(d, 0, 0);
    draft_state(d, 1, 0);
    draft_state(d, 1, 0);
    draft_preset(d, 1);
    draft_preset(d, 86400000);
    draft_timer_pair(d, 1, 1);
    draft_timer_pair(d, 1, 3);
    draft_timer_pair(d, 2, 2);
    draft_output_pair(d, 1, 0);
    draft_output_pair(d, 1, 4);
    draft_output_pair(d, 2, 2);
    DRAFT_MOVE(d, 1, 2, 0, 1, -101);
    DRAFT_MOVE(d, 3, 4, 0, -1, 2);
    DRAFT_MOVE(d, 2, 1, 1, 3, 102);
    DRAFT_MOVE(d, 4, 0, 0, -1, -2);
    return d;
}

/* The sound chart with one number changed. */
#define WITH(change, number, place) \
    do { \
        struct draft *d = sound(); \
        change; \
        if ((number) == 0) \
            EXPECT_ACCEPTED(ref_check(&d->t), 0); \
        else \
            EXPECT_TABLES(&d->t, (number), (place)); \
        free(d); \
    } while (0)

static void test_size(void)
{
    WITH((void)0, 0, 0);
    WITH(d->t.states_len = 0, REF_SIZE, 0);
    WITH(d->t.states_len -= 1, REF_SIZE, 0);
    WITH(d->t.moves_len -= 1, REF_SIZE, 0);
    WITH(d->t.moves_len = 1, REF_SIZE, 0);
    WITH(d->t.moves_len = 0, 0, 0);
    WITH(d->t.timer_pairs_len -= 1, REF_SIZE, 0);
    WITH(d->t.output_pairs_len -= 1, REF_SIZE, 0);
    WITH(d->t.output_pairs_len = 0, 0, 0);
    WITH(d->t.step = 0, REF_SIZE, 0);
    WITH(d->t.step = 1, 0, 0);
    WITH(d->t.step = 1000, 0, 0);
    WITH(d->t.step = 1001, REF_SIZE, 0);
    WITH(d->t.inputs = 64, 0, 0);
    WITH(d->t.inputs = 65, REF_SIZE, 0);
    WITH(d->t.outputs = 64, 0, 0);
    WITH(d->t.outputs = 65, REF_SIZE, 0);
    WITH(d->t.step = UINT32_MAX, REF_SIZE, 0);
}

/* Root and n - 1 leaves. */
static struct draft *wide(unsigned n)
{
    struct draft *d = draft_new(10, 64, 64);
    draft_state(d, 0, n > 1 ? 1 : 0);
    for (unsigned s = 1; s < n; s++)
        draft_state(d, 0, 0);
    return d;
}

static void test_counts(void)
{
    struct draft *d = wide(256);
    for (unsigned i = 0; i < 32; i++)
        draft_preset(d, 1);
    for (unsigned i = 0; i < 512; i++) /* 4 a state, over two inputs */
        DRAFT_MOVE(d, (int16_t)(i / 4 + 1), 0, 0, i % 2 ? 1 : -1,
                   i / 2 % 2 ? 64 : -64);
    for (unsigned i = 0; i < 2048; i++) {
        draft_timer_pair(d, i / 64 + 1, i % 64);
        draft_output_pair(d, i / 32 + 1, i % 32);
    }
    EXPECT_ACCEPTED(ref_check(&d->t), 0);
    draft_state(d, 0, 0);
    EXPECT_TABLES(&d->t, REF_SIZE, 0);
    d->t.states_len -= 2;
    DRAFT_MOVE(d, 200, 0, 0);
    EXPECT_TABLES(&d->t, REF_SIZE, 0);
    d->t.moves_len -= 11;
    draft_preset(d, 1);
    EXPECT_TABLES(&d->t, REF_SIZE, 0);
    d->t.presets_len -= 1;
    draft_timer_pair(d, 32, 64);
    EXPECT_TABLES(&d->t, REF_SIZE, 0);
    d->t.timer_pairs_len -= 2;
    draft_output_pair(d, 64, 64);
    EXPECT_TABLES(&d->t, REF_SIZE, 0);
    d->t.output_pairs_len -= 2;
    EXPECT_ACCEPTED(ref_check(&d->t), 0);
    free(d);
}

static void test_hierarchy(void)
{
    WITH(d->states[0] = 1, REF_HIERARCHY, 0);
    WITH(d->states[2] = 1, REF_HIERARCHY, 1);
    WITH(d->states[8] = 4, REF_HIERARCHY, 4);
    WITH(d->states[8] = 5, REF_HIERARCHY, 4);
    WITH(d->states[8] = 65535, REF_HIERARCHY, 4);
    /* 4 below 3 passes the super-state rule; 3 is no leaf then */
    WITH(d->states[8] = 3, REF_INITIAL, 3);
    struct draft *d = draft_new(1, 0, 0);
    for (unsigned s = 0; s < 8; s++)
        draft_state(d, s == 0 ? 0 : s - 1, s + 1);
    draft_state(d, 7, 0); /* depth 8 */
    EXPECT_ACCEPTED(ref_check(&d->t), 0);
    EXPECT_ACCEPTED(ref_state_length(&d->t), 8);
    d->states[17] = 9;
    draft_state(d, 8, 0); /* depth 9 */
    EXPECT_TABLES(&d->t, REF_HIERARCHY, 9);
    draft_state(d, 8, 0);
    EXPECT_TABLES(&d->t, REF_HIERARCHY, 9);
    free(d);
}

static void test_initial(void)
{
    WITH(d->states[1] = 0, REF_INITIAL, 0); /* the root is nobody's sub-state */
    WITH(d->states[1] = 3, REF_INITIAL, 0); /* a sub-state, not its own */
    WITH(d->states[1] = 2, 0, 0);
    WITH(d->states[1] = 5, REF_INITIAL, 0);
    WITH(d->states[3] = 0, REF_INITIAL, 1);
    WITH(d->states[3] = 1, REF_INITIAL, 1);
    WITH(d->states[3] = 2, REF_INITIAL, 1);
    WITH(d->states[3] = 4, 0, 0);
    WITH(d->states[3] = 65535, REF_INITIAL, 1);
    WITH(d->states[9] = 4, REF_INITIAL, 4);
    WITH(d->states[9] = 1, REF_INITIAL, 4);
}

static void test_presets(void)
{
    WITH(d->presets[0] = 0, REF_PRESET, 0);
    WITH(d->presets[1] = 0, REF_PRESET, 1);
    WITH(d->presets[0] = 86400000, 0, 0);
    WITH(d->presets[0] = 86400001, REF_PRESET, 0);
    WITH(d->presets[1] = 86400001, REF_PRESET, 1);
    WITH(d->presets[1] = UINT32_MAX, REF_PRESET, 1);
}

static void test_pairs(void)
{
    WITH(d->timer_pairs[0] = 0, REF_TIMER_PAIR, 0);
    WITH(d->timer_pairs[0] = 3, REF_TIMER_PAIR, 0);
    WITH(d->timer_pairs[1] = 5, REF_TIMER_PAIR, 0);
    WITH(d->timer_pairs[4] = 3, REF_TIMER_PAIR, 2);
    WITH(d->timer_pairs[5] = 5, REF_TIMER_PAIR, 2);
    WITH(d->timer_pairs[3] = 1, REF_TIMER_PAIR, 1); /* equal */
    WITH(d->timer_pairs[3] = 0, REF_TIMER_PAIR, 1); /* falls */
    WITH(d->timer_pairs[4] = 1, REF_TIMER_PAIR, 2);
    WITH(d->timer_pairs[3] = 2, 0, 0); /* (1,2) then (2,2) rises */
}

static void test_output_pairs(void)
{
    WITH(d->output_pairs[0] = 0, REF_OUTPUT_PAIR, 0);
    WITH(d->output_pairs[0] = 3, REF_OUTPUT_PAIR, 0);
    WITH(d->output_pairs[1] = 5, REF_OUTPUT_PAIR, 0);
    WITH(d->output_pairs[3] = 0, REF_OUTPUT_PAIR, 1);
    WITH(d->output_pairs[5] = 5, REF_OUTPUT_PAIR, 2);
    WITH(d->output_pairs[4] = 3, REF_OUTPUT_PAIR, 2);
    WITH(d->output_pairs[4] = 0, REF_OUTPUT_PAIR, 2);
    WITH(d->output_pairs[5] = 0, 0, 0); /* (1,4) then (2,0) rises */
    WITH(d->t.outputs = 1, REF_OUTPUT_PAIR, 2);
    WITH(d->t.outputs = 0, REF_OUTPUT_PAIR, 0);
}

/* Number k of move m's row. */
#define ROW(m, k) d->moves[(m) * 11 + (k)]

static void test_moves(void)
{
    WITH(ROW(0, 0) = -1, REF_MOVE, 0);
    WITH(ROW(0, 0) = 5, REF_MOVE, 0);
    WITH(ROW(0, 1) = -1, REF_MOVE, 0);
    WITH(ROW(0, 1) = 5, REF_MOVE, 0);
    WITH(ROW(0, 1) = -32768, REF_MOVE, 0);
    WITH(ROW(0, 2) = 2, REF_MOVE, 0);
    WITH(ROW(0, 2) = -1, REF_MOVE, 0);
    WITH(ROW(0, 2) = 1, REF_MOVE, 0); /* history to a leaf */
    WITH(ROW(3, 0) = 5, REF_MOVE, 3);
    WITH(ROW(3, 1) = 32767, REF_MOVE, 3);
    WITH(ROW(3, 2) = 1, 0, 0); /* history to the root */
    WITH(ROW(2, 1) = 3, REF_MOVE, 2);
    WITH((ROW(2, 1) = 3, ROW(2, 2) = 0), 0, 0);
}

static void test_literals(void)
{
    WITH(ROW(0, 3) = 65, REF_LITERAL, 0);
    WITH((d->t.inputs = 64, ROW(0, 5) = 64), 0, 0);
    WITH((d->t.inputs = 64, ROW(0, 5) = 65), REF_LITERAL, 0);
    WITH((d->t.inputs = 64, ROW(0, 5) = -64), 0, 0);
    WITH(ROW(3, 5) = 4, 0, 0);
    WITH(ROW(3, 5) = 5, REF_LITERAL, 3);
    WITH(ROW(3, 5) = -5, REF_LITERAL, 3);
    WITH(ROW(3, 5) = 100, REF_LITERAL, 3);
    WITH(ROW(3, 5) = 101, 0, 0);
    WITH(ROW(3, 5) = 103, REF_LITERAL, 3);
    WITH(ROW(3, 5) = 133, REF_LITERAL, 3);
    WITH(ROW(3, 5) = -133, REF_LITERAL, 3);
    WITH(ROW(3, 5) = -32768, REF_LITERAL, 3);
    WITH(ROW(3, 5) = 32767, REF_LITERAL, 3);
    WITH(ROW(3, 5) = 1, REF_LITERAL, 3);  /* -1 stands already */
    WITH(ROW(3, 5) = -1, REF_LITERAL, 3);
    WITH(ROW(2, 5) = -102, REF_LITERAL, 2);
    WITH(ROW(2, 6) = 4, REF_LITERAL, 2);  /* after a 0 */
    WITH(ROW(2, 10) = 4, REF_LITERAL, 2);
    WITH(d->t.inputs = 2, REF_LITERAL, 2);
    WITH(d->t.inputs = 0, REF_LITERAL, 0);
    WITH((d->t.presets_len = 1, d->t.timer_pairs_len = 4), REF_LITERAL, 2);
}

static void test_timer_literal_limits(void)
{
    struct draft *d = wide(2);
    for (unsigned n = 1; n <= 32; n++) {
        draft_preset(d, n);
        draft_timer_pair(d, n, 1);
    }
    DRAFT_MOVE(d, 1, 0, 0, 132, -101);
    EXPECT_ACCEPTED(ref_check(&d->t), 0);
    d->moves[3] = 133;
    EXPECT_TABLES(&d->t, REF_LITERAL, 0);
    d->moves[3] = -132;
    EXPECT_ACCEPTED(ref_check(&d->t), 0);
    d->moves[4] = -100;
    EXPECT_TABLES(&d->t, REF_LITERAL, 0);
    for (int i = 0; i < 8; i++)
        d->moves[3 + i] = (int16_t)(i % 2 ? 64 - i : -(125 + i));
    EXPECT_ACCEPTED(ref_check(&d->t), 0);
    d->moves[10] = 63;
    EXPECT_TABLES(&d->t, REF_LITERAL, 0);
    free(d);
}

static void test_idle(void)
{
    WITH(ROW(0, 4) = 102, REF_IDLE_TIMER, 0);
    WITH(ROW(0, 4) = -102, REF_IDLE_TIMER, 0);
    WITH(ROW(2, 4) = 101, REF_IDLE_TIMER, 2);
    /* (1,3) alone leaves leaf 4 below source 1 idle */
    WITH((d->timer_pairs[0] = 1, d->timer_pairs[1] = 2), REF_IDLE_TIMER, 0);
    WITH(d->timer_pairs[3] = 4, 0, 0);
    /* (1,3) and (1,4) together run below 1 without a pair of 1 */
    WITH((d->timer_pairs[1] = 3, d->timer_pairs[3] = 4), 0, 0);
    /* a timer without pairs is always idle */
    WITH(d->t.timer_pairs_len = 4, REF_IDLE_TIMER, 2);
}

static void test_overlap(void)
{
    WITH(ROW(1, 3) = 1, REF_OVERLAP, 1);
    WITH(ROW(3, 3) = 1, REF_OVERLAP, 3);
    WITH(ROW(1, 3) = 3, REF_OVERLAP, 1);
    WITH(ROW(3, 0) = 0, REF_OVERLAP, 3); /* the root is above 2 */
    WITH(DRAFT_MOVE(d, 2, 1, 1, -3), 0, 0);
    WITH(DRAFT_MOVE(d, 2, 1, 1, 3), REF_OVERLAP, 4);
    WITH(DRAFT_MOVE(d, 2, 1, 1, -102), 0, 0);
    WITH(DRAFT_MOVE(d, 2, 1, 1, 4, 102), REF_OVERLAP, 4);
    WITH(DRAFT_MOVE(d, 2, 1, 1, -3, -102), 0, 0);
    WITH(DRAFT_MOVE(d, 2, 1, 1, 3, -102), 0, 0);
    WITH(DRAFT_MOVE(d, 2, 1, 1), REF_OVERLAP, 4);
    struct draft *d = wide(4);
    DRAFT_MOVE(d, 1, 2, 0);
    DRAFT_MOVE(d, 2, 1, 0);
    DRAFT_MOVE(d, 3, 3, 0, 1);
    DRAFT_MOVE(d, 3, 3, 0, 2);
    DRAFT_MOVE(d, 1, 1, 0);
    EXPECT_TABLES(&d->t, REF_OVERLAP, 3); /* "Equal targets don't excuse it" */
    free(d);
}

/* 64 groups of two bits, 128 flip-flops, then one more. */
static void test_flip_flops(void)
{
    struct draft *d = draft_new(1, 0, 0);
    for (unsigned s = 0; s < 193; s++) /* 64 with three sub-states each */
        draft_state(d, s == 0 ? 0 : (s - 1) / 3, s < 64 ? 3 * s + 1 : 0);
    EXPECT_ACCEPTED(ref_state_length(&d->t), 64);
    size_t n;
    uint32_t *words = words_of_chart(&d->t, &n);
    uint64_t bytes, blocks;
    EXPECT_ACCEPTED(ref_controller_size(words, n, &bytes, &blocks), 0);
    EXPECT(bytes == 256 && blocks == 0);
    free(words);
    d->states[2 * 192 + 1] = 193;
    draft_state(d, 192, 0); /* a group of one sub-state: still 128 */
    EXPECT_ACCEPTED(ref_state_length(&d->t), 65);
    draft_state(d, 192, 0); /* of two: 129 */
    EXPECT_TABLES(&d->t, REF_FLIP_FLOPS, 0);
    free(d);
}

/* Each check against the next: both broken, the earlier is given, however late
 * its row. */
static void test_order(void)
{
    WITH((d->t.step = 0, d->states[0] = 1), REF_SIZE, 0);
    WITH((d->states[8] = 4, d->states[1] = 0), REF_HIERARCHY, 4);
    WITH((d->states[9] = 1, d->presets[0] = 0), REF_INITIAL, 4);
    WITH((d->presets[1] = 0, d->timer_pairs[0] = 0), REF_PRESET, 1);
    WITH((d->timer_pairs[5] = 9, d->output_pairs[0] = 0), REF_TIMER_PAIR, 2);
    WITH((d->output_pairs[5] = 9, ROW(0, 0) = 9), REF_OUTPUT_PAIR, 2);
    WITH((ROW(3, 0) = 9, ROW(0, 3) = 99), REF_MOVE, 3);
    WITH((ROW(3, 3) = 99, ROW(0, 4) = 102), REF_LITERAL, 3);
    WITH((ROW(2, 4) = 101, ROW(1, 3) = 1), REF_IDLE_TIMER, 2);
    struct draft *d = draft_new(1, 1, 0);
    for (unsigned s = 0; s < 256; s++)
        draft_state(d, s == 0 ? 0 : (s - 1) / 3, s < 85 ? 3 * s + 1 : 0);
    DRAFT_MOVE(d, 255, 0, 0);
    DRAFT_MOVE(d, 255, 0, 0);
    EXPECT_TABLES(&d->t, REF_OVERLAP, 1);
    d->t.moves_len = 11;
    EXPECT_TABLES(&d->t, REF_FLIP_FLOPS, 0);
    free(d);
}

/* A good state gives SCANS for a wrong length, and then it runs. */
static void expect_good_state(const struct ref_tables *t, const uint32_t *lent)
{
    uint32_t s[4] = {lent[0], lent[1], lent[2], lent[3]};
    uint16_t leaves[2] = {777, 777};
    uint64_t in[2] = {0, 0}, on[2] = {7, 7};
    EXPECT_REFUSED(ref_chart_run(t, s, 4, in, 2, leaves, 1, on, 2),
                   REF_SCANS, 0);
    EXPECT_REFUSED(ref_chart_run(t, s, 4, in, 1, leaves, 1, on, 2),
                   REF_SCANS, 0);
    EXPECT_REFUSED(ref_chart_run(t, s, 4, in, 0, leaves, 1, on, 0),
                   REF_SCANS, 0);
    EXPECT_ACCEPTED(ref_chart_run(t, s, 4, NULL, 0, NULL, 0, NULL, 0), 0);
    EXPECT(memcmp(s, lent, sizeof s) == 0);
    EXPECT(leaves[0] == 777 && leaves[1] == 777 && on[0] == 7 && on[1] == 7);
    EXPECT_ACCEPTED(ref_chart_step(t, s, 4, 0, leaves, on), 1);
}

/* A bad one gives STATE, before SCANS. */
static void expect_bad_state(const struct ref_tables *t, const uint32_t *lent,
                             size_t len)
{
    uint32_t s[4] = {lent[0], lent[1], lent[2], lent[3]};
    uint16_t leaves[2] = {777, 777};
    uint64_t in[2] = {0, 0}, on[2] = {7, 7};
    EXPECT_REFUSED(ref_chart_run(t, s, len, in, 2, leaves, 1, on, 2), REF_STATE,
                   0);
    EXPECT_REFUSED(ref_chart_step(t, s, len, 0, leaves, on), REF_STATE, 0);
    EXPECT(memcmp(s, lent, sizeof s) == 0);
    EXPECT(leaves[0] == 777 && leaves[1] == 777 && on[0] == 7 && on[1] == 7);
}

/* Codes of states 0 and 1, then timers 1 (10 ms at most) and 2. */
static void test_chart_state(void)
{
    static const uint32_t good[][4] = {
        {0, 0, 0, 0}, {0, 1, 10, 0}, {1, 1, 0, 86400000}};
    static const uint32_t bad[][4] = {
        {2, 0, 0, 0}, {0, 2, 0, 0}, {1, 2, 0, 0}, {0, 0, 5, 0}, {0, 0, 20, 0},
        {0, 0, 0, 10}, {1, 0, 10, 0}, {1, 0, 0, 86400010},
        {1, 0, 0, UINT32_MAX}, {UINT32_MAX, 0, 0, 0}};
    struct draft *d = sound();
    for (size_t i = 0; i < sizeof good / sizeof good[0]; i++) {
        expect_good_state(&d->t, good[i]);
        expect_bad_state(&d->t, good[i], 3);
        expect_bad_state(&d->t, good[i], 0);
    }
    for (size_t i = 0; i < sizeof bad / sizeof bad[0]; i++)
        expect_bad_state(&d->t, bad[i], 4);
    EXPECT_REFUSED(ref_history(&d->t, NULL, 0, NULL, 0, NULL, 1), REF_SCANS, 0);
    EXPECT_ACCEPTED(ref_history(&d->t, NULL, 0, NULL, 0, NULL, 0), 0);
    free(d);
}

/* The lent controller of the Lamp. */
static void test_controller_state(void)
{
    struct draft *d = lamp();
    size_t n;
    uint32_t *w = words_of_chart(&d->t, &n);
    uint8_t ff[3] = {1, 1, 1};
    struct ref_block b[2] = {{1, 9, 250, 1, 1}, {0, 0, 0, 0, 0}};
    uint64_t in = 0, on = 7;
    EXPECT_REFUSED(ref_program_scan(w, n, 0, ff, 2, b, 1, in, &on),
                   REF_SIZE, 0);
    EXPECT_REFUSED(ref_program_scan(w, n, 1001, ff, 3, b, 1, in, &on),
                   REF_SIZE, 0);
    EXPECT_REFUSED(ref_program_scan(w, n - 1, 1000, ff, 3, b, 1, in, &on),
                   REF_TEXT, n - 1);
    EXPECT_REFUSED(ref_program_scan(w, n - 1, 0, ff, 3, b, 1, in, &on),
                   REF_SIZE, 0);
    EXPECT_REFUSED(ref_program_run(w, n, 1, ff, 3, b, 1, &in, 1, &on, 0),
                   REF_STATE, 0);
    EXPECT_REFUSED(ref_program_scan(w, n, 1, ff, 1, b, 1, in, &on),
                   REF_STATE, 0);
    EXPECT_REFUSED(ref_program_scan(w, n, 1, ff, 2, b, 0, in, &on),
                   REF_STATE, 0);
    EXPECT_REFUSED(ref_program_scan(w, n, 1, ff, 2, b, 2, in, &on),
                   REF_STATE, 0);
    b[0].et = 251;
    EXPECT_REFUSED(ref_program_scan(w, n, 1, ff, 2, b, 1, in, &on),
                   REF_STATE, 0);
    b[0].et = 250;
    ff[1] = 2;
    EXPECT_REFUSED(ref_program_scan(w, n, 1, ff, 2, b, 1, in, &on),
                   REF_STATE, 0);
    ff[1] = 1;
    ff[0] = 255;
    EXPECT_REFUSED(ref_program_scan(w, n, 1, ff, 2, b, 1, in, &on),
                   REF_STATE, 0);
    ff[0] = 1;
    EXPECT_REFUSED(ref_program_run(w, n, 1, ff, 2, b, 1, &in, 1, &on, 0),
                   REF_SCANS, 0);
    EXPECT(on == 7 && b[0].in == 1 && b[0].pt == 9 && b[0].et == 250);
    EXPECT_ACCEPTED(ref_program_run(w, n, 1, ff, 2, b, 1, NULL, 0, NULL, 0), 0);
    EXPECT(b[0].pt == 9);
    EXPECT_ACCEPTED(ref_program_scan(w, n, 1000, ff, 2, b, 1, in, &on), 1);
    EXPECT(on == 1 && b[0].pt == 250 && b[0].et == 250 && b[0].q == 1);
    free(w);
    free(d);
}

void test_refusals(void)
{
    test_size();
    test_counts();
    test_hierarchy();
    test_initial();
    test_presets();
    test_pairs();
    test_output_pairs();
    test_moves();
    test_literals();
    test_timer_literal_limits();
    test_idle();
    test_overlap();
    test_flip_flops();
    test_order();
    test_chart_state();
    test_controller_state();
}
