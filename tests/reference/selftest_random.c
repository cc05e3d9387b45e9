/* Random accepted charts: the chart, the written program and the history
 * reading must agree, from the start and from a state in the middle. Random
 * tables: OVERLAP and IDLE TIMER against their plain definitions. */
#include "selftest.h"

#include <stdio.h>
#include <stdlib.h>
#include <string.h>

static unsigned seen_moves, seen_history, seen_expired, seen_overlap, seen_idle;

/* ---- Random charts ---- */

static unsigned depth_of(const struct draft *d, unsigned s)
{
    unsigned depth = 0;
    for (; s != 0; s = d->states[2 * s])
        depth++;
    return depth;
}

static void any_states(struct draft *d, unsigned n)
{
    draft_state(d, 0, 0);
    for (unsigned s = 1; s < n; s++) {
        unsigned super;
        do
            super = once_in(2) ? below(s) : s - 1 - below(s < 4 ? s : 4);
        while (depth_of(d, super) == 8);
        draft_state(d, super, 0);
        /* any of the sub-states may become the initial one */
        if (d->states[2 * super + 1] == 0 || once_in(3))
            d->states[2 * super + 1] = (uint16_t)s;
    }
}

static void any_pairs(struct draft *d, unsigned n, unsigned firsts, bool timers)
{
    for (unsigned first = 1; first <= firsts; first++) {
        unsigned rare = 1 + below(6);
        for (unsigned s = 0; s < n; s++) {
            if (!once_in(rare + 1))
                continue;
            if (timers)
                draft_timer_pair(d, first, s);
            else
                draft_output_pair(d, first, s);
        }
    }
}

/* The first `whole` inputs are always in it, on or off: moves that differ there
 * do not overlap, so that many can be kept and many are enabled. */
void any_move(struct draft *d, unsigned n, unsigned whole)
{
    int16_t row[11] = {0};
    unsigned inputs = d->t.inputs, timers = (unsigned)d->t.presets_len, k = 3;
    row[0] = (int16_t)below(n);
    row[1] = (int16_t)below(n);
    row[2] = (int16_t)below(2);
    for (unsigned i = 1; i <= inputs && k < 11; i++)
        if (i <= whole || once_in(whole == 0 ? 3 : 9))
            row[k++] = (int16_t)(once_in(2) ? i : 0u - i);
    for (unsigned i = 101; i <= 100 + timers && k < 11; i++)
        if (once_in(3))
            row[k++] = (int16_t)(once_in(2) ? i : 0u - i);
    if (k > 4 && once_in(2)) { /* not always in rising order */
        int16_t first = row[3];
        row[3] = row[k - 1];
        row[k - 1] = first;
    }
    draft_move_row(d, row);
}

/* A draft whose moves are not checked yet. */
struct draft *any_frame(unsigned n)
{
    static const uint32_t steps[] = {1, 7, 100, 999, 1000};
    uint32_t step = steps[below(5)], inputs = below(7);
    struct draft *d = draft_new(step, inputs, below(6));
    unsigned timers = below(4);
    any_states(d, n);
    for (unsigned i = 0; i < timers; i++)
        draft_preset(d, 1 + below(5 * d->t.step));
    any_pairs(d, n, timers, true);
    any_pairs(d, n, d->t.outputs, false);
    return d;
}

/* Keeps those moves with which the chart is still accepted. */
static struct draft *any_chart(unsigned n, unsigned tries)
{
    struct draft *d = any_frame(n);
    while (ref_check(&d->t).number != REF_ACCEPTED) { /* FLIP-FLOPS */
        free(d);
        d = any_frame(n);
    }
    unsigned whole = below(4);
    while (tries-- > 0 && d->t.moves_len < 11 * 512) {
        any_move(d, n, whole);
        if (ref_check(&d->t).number != REF_ACCEPTED)
            d->t.moves_len -= 11;
    }
    return d;
}

/* ---- OVERLAP and IDLE TIMER by their definitions ---- */

bool at_or_above(const struct draft *d, unsigned above, unsigned s)
{
    while (s != above && s != 0)
        s = d->states[2 * s];
    return s == above;
}

bool holds(const int16_t *row, uint64_t inputs, uint64_t timers)
{
    for (int i = 3; i < 11 && row[i] != 0; i++) {
        unsigned size = (unsigned)abs(row[i]);
        uint64_t on = size < 100 ? inputs >> (size - 1) & 1
                                 : timers >> (size - 101) & 1;
        if (on != (row[i] > 0))
            return false;
    }
    return true;
}

bool overlap(const struct draft *d, const int16_t *a, const int16_t *b)
{
    if (!at_or_above(d, (unsigned)a[0], (unsigned)b[0])
        && !at_or_above(d, (unsigned)b[0], (unsigned)a[0]))
        return false;
    for (unsigned inputs = 0; inputs < 64; inputs++)
        for (unsigned timers = 0; timers < 8; timers++)
            if (holds(a, inputs, timers) && holds(b, inputs, timers))
                return true;
    return false;
}

bool is_leaf(const struct draft *d, unsigned s)
{
    return d->states[2 * s + 1] == 0;
}

static bool runs(const struct draft *d, unsigned timer, unsigned leaf)
{
    for (size_t i = 0; i < d->t.timer_pairs_len; i += 2)
        if (d->timer_pairs[i] == timer
            && at_or_above(d, d->timer_pairs[i + 1], leaf))
            return true;
    return false;
}

static bool idle(const struct draft *d, const int16_t *row)
{
    for (int i = 3; i < 11 && row[i] != 0; i++)
        for (unsigned s = 0; abs(row[i]) > 100 && s < d->t.states_len / 2; s++)
            if (is_leaf(d, s) && at_or_above(d, (unsigned)row[0], s)
                && !runs(d, (unsigned)abs(row[i]) - 100, s))
                return true;
    return false;
}

static struct ref_answer plain_check(const struct draft *d)
{
    size_t n = d->t.moves_len / 11;
    for (size_t m = 0; m < n; m++)
        if (d->moves[11 * m + 2] == 1
            && is_leaf(d, (unsigned)d->moves[11 * m + 1]))
            return (struct ref_answer){REF_MOVE, m, 0};
    for (size_t m = 0; m < n; m++)
        if (idle(d, d->moves + 11 * m))
            return (struct ref_answer){REF_IDLE_TIMER, m, 0};
    for (size_t m = 0; m < n; m++)
        for (size_t e = 0; e < m; e++)
            if (overlap(d, d->moves + 11 * e, d->moves + 11 * m))
                return (struct ref_answer){REF_OVERLAP, m, 0};
    return (struct ref_answer){0, 0, 0};
}

static void test_plain_checks(void)
{
    for (int r = 0; r < 3000; r++) {
        unsigned n = 1 + below(9);
        struct draft *d = any_frame(n);
        for (unsigned moves = below(5); moves > 0; moves--)
            any_move(d, n, 0);
        struct ref_answer due = plain_check(d);
        EXPECT(same(ref_check(&d->t), due.number, due.place, 0));
        seen_overlap += due.number == REF_OVERLAP;
        seen_idle += due.number == REF_IDLE_TIMER;
        free(d);
    }
}

/* ---- The three ways to run ---- */

/* A controller with its program. */
struct plc {
    uint32_t *words;
    size_t n, bytes, count;
    uint8_t *flip_flops;
    struct ref_block *blocks;
};

static struct plc plc_for(const struct ref_tables *t)
{
    struct plc p;
    uint64_t bytes = 0, blocks = 0;
    p.words = words_of_chart(t, &p.n);
    EXPECT_ACCEPTED(ref_controller_size(p.words, p.n, &bytes, &blocks), 0);
    p.bytes = (size_t)bytes;
    p.count = (size_t)blocks;
    p.flip_flops = must_alloc(p.bytes);
    p.blocks = must_alloc(p.count * sizeof *p.blocks);
    memset(p.flip_flops, 0, p.bytes);
    memset(p.blocks, 0, p.count * sizeof *p.blocks);
    EXPECT(p.count == t->presets_len);
    return p;
}

static void plc_free(struct plc *p)
{
    free(p->words);
    free(p->flip_flops);
    free(p->blocks);
}

/* The text reads back to its words and the words write back to the text. */
static void expect_round_trip(const struct ref_tables *t, const struct plc *p)
{
    size_t n;
    char *text = text_of_chart(t, &n);
    uint8_t *again = must_alloc(n);
    EXPECT_ACCEPTED(ref_write_words(p->words, p->n, again, n), n);
    EXPECT(memcmp(text, again, n) == 0);
    free(again);
    free(text);
}

static unsigned bits(unsigned n)
{
    unsigned width = 0;
    while (n >> width != 0)
        width++;
    return width;
}

/* The code of each super-state and its flip-flops, one after the other. */
static void code_bytes(const struct ref_tables *t, const uint32_t *state,
                       uint8_t *out)
{
    size_t n = t->states_len / 2, slot = 0, b = 0;
    for (size_t s = 0; s < n; s++) {
        unsigned subs = 0;
        for (size_t i = 1; i < n; i++)
            subs += t->states[2 * i] == s;
        if (subs == 0)
            continue;
        for (unsigned bit = 0; bit < bits(subs - 1); bit++)
            out[b++] = state[slot] >> bit & 1;
        slot++;
    }
}

/* "A controller stands for a machine state when flip-flops and working copies
 * both code it and each block's next call would give the machine's value,
 * capped at the preset." */
static void expect_stands(const struct ref_tables *t, const struct plc *p,
                          const uint32_t *state, size_t state_len,
                          const struct draft *d, uint16_t leaf)
{
    uint8_t due[128] = {0};
    size_t half = p->bytes / 2;
    uint16_t decoded = 9999;
    code_bytes(t, state, due);
    EXPECT(memcmp(p->flip_flops, due, half) == 0);
    EXPECT(memcmp(p->flip_flops + half, due, half) == 0);
    EXPECT_ACCEPTED(ref_leaf(t, p->flip_flops, p->bytes, &decoded), 1);
    EXPECT(decoded == leaf);
    for (size_t i = 0; i < p->count; i++) {
        uint32_t value = state[state_len - p->count + i], preset = t->presets[i];
        uint32_t next = 0;
        if (runs(d, (unsigned)i + 1, leaf) && p->blocks[i].last_in)
            next = p->blocks[i].et + t->step;
        EXPECT((next < preset ? next : preset)
               == (value < preset ? value : preset));
        seen_expired += value >= preset;
    }
}

/* Scan by scan, chart against program. */
static void expect_same_steps(const struct draft *d, struct plc *p,
                              uint32_t *state, size_t len,
                              const uint64_t *inputs, size_t scans,
                              const uint16_t *leaves, const uint64_t *outputs)
{
    for (size_t i = 0; i < scans; i++) {
        uint16_t leaf;
        uint64_t on, il;
        EXPECT_ACCEPTED(ref_chart_step(&d->t, state, len, inputs[i], &leaf,
                                       &on), 1);
        EXPECT_ACCEPTED(ref_program_scan(p->words, p->n, d->t.step,
                                         p->flip_flops, p->bytes, p->blocks,
                                         p->count, inputs[i], &il), 1);
        EXPECT(leaf == leaves[i] && on == outputs[i] && il == on);
        expect_stands(&d->t, p, state, len, d, leaf);
        if (i > 0)
            seen_moves += leaves[i] != leaves[i - 1];
    }
}

enum { SCANS = 40 };

static void any_inputs(uint64_t *inputs)
{
    for (int i = 0; i < SCANS; i++)
        inputs[i] = i > 0 && !once_in(3) ? inputs[i - 1] : any64();
}

/* From the start: also the history reading. */
static void run_from_start(const struct draft *d)
{
    struct ref_tables t = exact(&d->t);
    struct plc p = plc_for(&t);
    size_t len = (size_t)ref_state_length(&t).length;
    uint32_t *state = must_alloc(len * 4), *again = must_alloc(len * 4);
    uint64_t inputs[SCANS], on[SCANS], on2[SCANS], on3[SCANS];
    uint16_t leaves[SCANS], leaves2[SCANS];
    memset(state, 0, len * 4);
    memset(again, 0, len * 4);
    any_inputs(inputs);
    expect_round_trip(&t, &p);
    EXPECT_ACCEPTED(ref_chart_run(&t, state, len, inputs, SCANS, leaves, SCANS,
                                  on, SCANS), SCANS);
    EXPECT_ACCEPTED(ref_history(&t, inputs, SCANS, leaves2, SCANS, on2, SCANS),
                    SCANS);
    EXPECT_ACCEPTED(ref_program_run(p.words, p.n, t.step, p.flip_flops, p.bytes,
                                    p.blocks, p.count, inputs, SCANS, on3,
                                    SCANS), SCANS);
    EXPECT(memcmp(leaves, leaves2, sizeof leaves) == 0);
    EXPECT(memcmp(on, on2, sizeof on) == 0 && memcmp(on, on3, sizeof on) == 0);
    memset(p.flip_flops, 0, p.bytes);
    memset(p.blocks, 0, p.count * sizeof *p.blocks);
    expect_same_steps(d, &p, again, len, inputs, SCANS, leaves, on);
    EXPECT(memcmp(state, again, len * 4) == 0);
    free(state);
    free(again);
    plc_free(&p);
    exact_free(&t);
}

/* ---- From a state in the middle ---- */

/* Any codes; the leaf they lead to is found by stepping a chart without
 * moves. */
static uint16_t any_state(const struct draft *d, uint32_t *state, size_t len)
{
    struct ref_tables still = d->t;
    size_t n = d->t.states_len / 2, slot = 0, timers = d->t.presets_len;
    uint16_t leaf = 0;
    uint64_t on;
    for (size_t s = 0; s < n; s++) {
        unsigned subs = 0;
        for (size_t i = 1; i < n; i++)
            subs += d->states[2 * i] == s;
        if (subs > 0)
            state[slot++] = below(subs);
    }
    memset(state + slot, 0, timers * 4);
    still.moves_len = 0;
    EXPECT_ACCEPTED(ref_chart_step(&still, state, len, 0, &leaf, &on), 1);
    for (size_t i = 0; i < timers; i++) {
        uint32_t top = (d->presets[i] + d->t.step - 1) / d->t.step;
        state[slot + i] = runs(d, (unsigned)i + 1, leaf)
            ? below(top + 1) * d->t.step : 0;
    }
    return leaf;
}

/* A controller that stands for the state; what is free is random. */
static void stand(const struct draft *d, struct plc *p, const uint32_t *state,
                  size_t len, uint16_t leaf)
{
    size_t half = p->bytes / 2;
    uint8_t due[128] = {0};
    code_bytes(&d->t, state, due);
    memcpy(p->flip_flops, due, half);
    memcpy(p->flip_flops + half, due, half);
    for (size_t i = 0; i < p->count; i++) {
        uint32_t value = state[len - p->count + i], preset = d->presets[i];
        struct ref_block *b = &p->blocks[i];
        b->in = (uint8_t)below(3);
        b->q = (uint8_t)below(3);
        b->pt = (uint32_t)any64();
        b->last_in = (uint8_t)below(3);
        b->et = below(preset + 1);
        if (!runs(d, (unsigned)i + 1, leaf))
            continue;
        b->last_in = value != 0;
        if (value == 0)
            continue;
        b->et = value - d->t.step;
        if (value >= preset && once_in(2))
            b->et = preset;
    }
}

static void run_from_middle(const struct draft *d)
{
    struct plc p = plc_for(&d->t);
    size_t len = (size_t)ref_state_length(&d->t).length;
    uint32_t *state = must_alloc(len * 4), *again = must_alloc(len * 4);
    uint64_t inputs[SCANS], on[SCANS];
    uint16_t leaves[SCANS];
    uint16_t leaf = any_state(d, state, len);
    memcpy(again, state, len * 4);
    stand(d, &p, state, len, leaf);
    expect_stands(&d->t, &p, state, len, d, leaf);
    any_inputs(inputs);
    EXPECT_ACCEPTED(ref_chart_run(&d->t, state, len, inputs, SCANS, leaves,
                                  SCANS, on, SCANS), SCANS);
    expect_same_steps(d, &p, again, len, inputs, SCANS, leaves, on);
    EXPECT(memcmp(state, again, len * 4) == 0);
    free(state);
    free(again);
    plc_free(&p);
}

static void test_runs(void)
{
    for (int r = 0; r < 600; r++) {
        struct draft *d = any_chart(1 + below(once_in(5) ? 40 : 12), 150);
        for (size_t m = 0; m < d->t.moves_len; m += 11)
            seen_history += d->moves[m + 2] == 1;
        run_from_start(d);
        run_from_start(d);
        run_from_middle(d);
        run_from_middle(d);
        free(d);
    }
}

static void test_large_runs(void)
{
    for (int r = 0; r < 12; r++) {
        struct draft *d = any_chart(60 + below(80), 2000);
        run_from_start(d);
        run_from_middle(d);
        free(d);
    }
}

/* ---- Anything at all ---- */

/* No table, text or list may do harm, and every call that takes the tables
 * must give the same refusal. */
static void test_anything(void)
{
    for (int r = 0; r < 3000; r++) {
        struct draft *d = any_chart(1 + below(10), 5);
        for (uint32_t i = below(3); i > 0; i--) {
            uint16_t any = (uint16_t)(once_in(2) ? any64() : below(12));
            uint32_t wide = (uint32_t)any64();
            switch (below(5)) {
            case 0: d->states[below(20)] = any; break;
            case 1: d->moves[below(30)] = (int16_t)any; break;
            case 2: d->presets[i % 3] = wide >> below(32); break;
            case 3: d->timer_pairs[below(12)] = any; break;
            default: d->output_pairs[below(12)] = any; break;
            }
        }
        if (once_in(5))
            d->t.states_len += below(2);
        if (once_in(20))
            d->t.moves_len += below(2);
        struct ref_answer a = ref_check(&d->t);
        if (a.number != REF_ACCEPTED)
            EXPECT_TABLES(&d->t, a.number, a.place);
        else
            run_from_start(d);
        free(d);
    }
}

void test_random(void)
{
    test_plain_checks();
    EXPECT(seen_overlap > 100 && seen_idle > 100);
    test_runs();
    test_large_runs();
    EXPECT(seen_moves > 5000 && seen_history > 300 && seen_expired > 2000);
    test_anything();
    printf("random charts: %u changes of leaf, %u moves by history, %u expired "
           "timers, %u overlaps, %u idle timers\n", seen_moves, seen_history,
           seen_expired, seen_overlap, seen_idle);
}
