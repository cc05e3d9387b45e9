/* The reading of demand 3: what happens next is read from the inputs and the
 * list of all earlier leaves. Nothing is remembered and nothing is counted from
 * scan to scan, and the tables are read raw, so that this is a second way to
 * the answers of chart.c. */
#include "tables.h"

#include <stdlib.h>

/* The tables and the leaves so far; leaves[0] is the start's, the last one is
 * the active leaf. */
struct past {
    const struct ref_tables *t;
    const uint16_t *leaves;
    size_t count;
};

static uint16_t super_of(const struct ref_tables *t, uint16_t s)
{
    return t->states[s * STATE_ROW];
}

/* 0 at a leaf, as the root is nobody's sub-state. */
static uint16_t initial_of(const struct ref_tables *t, uint16_t s)
{
    return t->states[s * STATE_ROW + 1];
}

static bool lies_at_or_below(const struct ref_tables *t, uint16_t s,
                             uint16_t above)
{
    while (s != above) {
        if (s == 0)
            return false;
        s = super_of(t, s);
    }
    return true;
}

static uint16_t initial_leaf(const struct ref_tables *t, uint16_t s)
{
    while (initial_of(t, s) != 0)
        s = initial_of(t, s);
    return s;
}

/* The sub-state by which super-state s was last on the path: a state that is
 * set is always on the path that follows, so the last leaf below s tells it. */
static uint16_t remembered(const struct past *p, uint16_t s)
{
    for (size_t i = p->count; i-- > 0;) {
        uint16_t below = p->leaves[i];
        if (below == s || !lies_at_or_below(p->t, below, s))
            continue;
        while (super_of(p->t, below) != s)
            below = super_of(p->t, below);
        return below;
    }
    return initial_of(p->t, s);
}

static uint16_t history_leaf(const struct past *p, uint16_t s)
{
    while (initial_of(p->t, s) != 0)
        s = remembered(p, s);
    return s;
}

static bool runs_timer(const struct ref_tables *t, uint16_t leaf,
                       unsigned timer)
{
    for (size_t i = 0; i < t->timer_pairs_len; i += PAIR_ROW)
        if (t->timer_pairs[i] == timer
            && lies_at_or_below(t, leaf, t->timer_pairs[i + 1]))
            return true;
    return false;
}

/* "a timer is expired before a step when that step's active leaf and the N
 * before it all lie at or below the timer's paired states. The start's leaf
 * counts. With fewer than N before it, it isn't expired." */
static bool expired(const struct past *p, unsigned timer)
{
    uint32_t preset = p->t->presets[timer - 1];
    size_t n = preset / p->t->step + (preset % p->t->step != 0);
    if (p->count < n + 1)
        return false;
    for (size_t back = 0; back <= n; back++)
        if (!runs_timer(p->t, p->leaves[p->count - 1 - back], timer))
            return false;
    return true;
}

static bool literal_holds(const struct past *p, int literal, uint64_t input)
{
    int size = literal < 0 ? -literal : literal;
    bool on = size <= MOST_INPUTS ? (input >> (size - 1) & 1) != 0
                                  : expired(p, (unsigned)size - 100);
    return on == (literal > 0);
}

static bool enabled(const struct past *p, const int16_t *row, uint64_t input)
{
    if (!lies_at_or_below(p->t, p->leaves[p->count - 1], (uint16_t)row[0]))
        return false;
    for (size_t i = 0; i < LITERALS && row[3 + i] != 0; i++)
        if (!literal_holds(p, row[3 + i], input))
            return false;
    return true;
}

static uint16_t next_leaf(const struct past *p, uint64_t input)
{
    for (size_t m = 0; m < p->t->moves_len; m += MOVE_ROW) {
        const int16_t *row = p->t->moves + m;
        if (!enabled(p, row, input))
            continue;
        uint16_t target = (uint16_t)row[1];
        return row[2] == 1 ? history_leaf(p, target)
                           : initial_leaf(p->t, target);
    }
    return p->leaves[p->count - 1]; /* "with none, the state stays" */
}

/* "An output is on when a paired state is on the path." */
static uint64_t outputs_at(const struct ref_tables *t, uint16_t leaf)
{
    uint64_t on = 0;
    for (size_t i = 0; i < t->output_pairs_len; i += PAIR_ROW)
        if (lies_at_or_below(t, leaf, t->output_pairs[i + 1]))
            on |= UINT64_C(1) << (t->output_pairs[i] - 1);
    return on;
}

struct ref_answer ref_history(const struct ref_tables *tables,
                              const uint64_t *inputs, size_t scans,
                              uint16_t *leaves, size_t leaves_len,
                              uint64_t *outputs, size_t outputs_len)
{
    struct ref_answer answer = ref_check(tables);
    if (answer.number != REF_ACCEPTED)
        return answer;
    if (leaves_len != scans || outputs_len != scans)
        return ref_refused(REF_SCANS, 0);
    uint16_t *list = malloc((scans + 1) * sizeof *list);
    if (list == NULL)
        abort();
    list[0] = initial_leaf(tables, 0);
    for (size_t i = 0; i < scans; i++) {
        struct past p = {.t = tables, .leaves = list, .count = i + 1};
        list[i + 1] = next_leaf(&p, inputs[i]);
        leaves[i] = list[i + 1];
        outputs[i] = outputs_at(tables, leaves[i]);
    }
    free(list);
    return ref_accepted(scans);
}
