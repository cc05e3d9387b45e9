/* Checks 1 to 11. */
#include "tables.h"

#include <string.h>

#define NO_ROW SIZE_MAX

struct ref_answer ref_refused(enum ref_number number, uint64_t place)
{
    return (struct ref_answer){.number = number, .place = place, .length = 0};
}

struct ref_answer ref_accepted(uint64_t length)
{
    return (struct ref_answer){.number = REF_ACCEPTED, .place = 0,
                               .length = length};
}

bool ref_at_or_above(const struct ref_chart *c, uint16_t above, uint16_t s)
{
    while (c->depth[s] > c->depth[above])
        s = c->super[s];
    return s == above;
}

static bool fits(size_t len, size_t row, size_t most)
{
    return len % row == 0 && len / row <= most;
}

/* "slice no whole number of rows, count or scan step beyond its limit, no
 * state" */
static size_t check_size(const struct ref_tables *t, struct ref_chart *c)
{
    bool good = fits(t->states_len, STATE_ROW, MOST_STATES)
        && t->states_len != 0
        && fits(t->moves_len, MOVE_ROW, MOST_MOVES)
        && fits(t->presets_len, 1, MOST_TIMERS)
        && fits(t->timer_pairs_len, PAIR_ROW, MOST_PAIRS)
        && fits(t->output_pairs_len, PAIR_ROW, MOST_PAIRS)
        && t->step >= 1 && t->step <= MOST_STEP
        && t->inputs <= MOST_INPUTS && t->outputs <= MOST_OUTPUTS;
    if (!good)
        return 0;
    c->states = t->states_len / STATE_ROW;
    c->moves = t->moves_len / MOVE_ROW;
    c->timers = t->presets_len;
    c->step = t->step;
    return NO_ROW;
}

/* "State 0 is the root, with super-state 0 ... Every other super-state has a
 * smaller number than its sub-state." */
static size_t check_hierarchy(const struct ref_tables *t, struct ref_chart *c)
{
    for (size_t s = 0; s < c->states; s++) {
        uint16_t above = t->states[s * STATE_ROW];
        if (s == 0) {
            if (above != 0)
                return s;
            continue; /* "nobody's sub-state", so it is not counted as one */
        }
        if (above >= s || c->depth[above] == MOST_DEPTH)
            return s;
        c->super[s] = above;
        c->depth[s] = (uint8_t)(c->depth[above] + 1);
        c->subs[above]++;
    }
    return NO_ROW;
}

/* "not a sub-state of its own, or not 0 at a leaf" */
static size_t check_initial(const struct ref_tables *t, struct ref_chart *c)
{
    for (size_t s = 0; s < c->states; s++) {
        uint16_t first = t->states[s * STATE_ROW + 1];
        bool good = c->subs[s] == 0
            ? first == 0
            : first != 0 && first < c->states && c->super[first] == s;
        if (!good)
            return s;
        c->initial[s] = first;
    }
    return NO_ROW;
}

static size_t check_presets(const struct ref_tables *t, struct ref_chart *c)
{
    for (size_t i = 0; i < c->timers; i++) {
        uint32_t preset = t->presets[i];
        if (preset < 1 || preset > MOST_TIME)
            return i;
        /* "with N the preset divided by the scan step, rounded up" */
        c->preset[i] = preset;
        c->top[i] = (preset + c->step - 1) / c->step * c->step;
    }
    return NO_ROW;
}

/* "unknown timer or state, or not above the pair before" */
static size_t least_bad_pair(const uint16_t *pairs, size_t len, size_t firsts,
                             size_t states)
{
    for (size_t i = 0; i < len; i += PAIR_ROW) {
        uint16_t first = pairs[i], second = pairs[i + 1];
        if (first < 1 || first > firsts || second >= states)
            return i / PAIR_ROW;
        if (i == 0)
            continue;
        uint16_t first_before = pairs[i - 2], second_before = pairs[i - 1];
        if (first < first_before
            || (first == first_before && second <= second_before))
            return i / PAIR_ROW;
    }
    return NO_ROW;
}

static size_t check_timer_pairs(const struct ref_tables *t, struct ref_chart *c)
{
    size_t bad = least_bad_pair(t->timer_pairs, t->timer_pairs_len, c->timers,
                                c->states);
    if (bad != NO_ROW)
        return bad;
    for (size_t i = 0; i < t->timer_pairs_len; i += PAIR_ROW)
        c->runs[t->timer_pairs[i + 1]] |= UINT32_C(1) << (t->timer_pairs[i] - 1);
    for (size_t s = 1; s < c->states; s++)
        c->runs[s] |= c->runs[c->super[s]];
    return NO_ROW;
}

static size_t check_output_pairs(const struct ref_tables *t,
                                 struct ref_chart *c)
{
    size_t bad = least_bad_pair(t->output_pairs, t->output_pairs_len,
                                t->outputs, c->states);
    if (bad != NO_ROW)
        return bad;
    for (size_t i = 0; i < t->output_pairs_len; i += PAIR_ROW)
        c->shows[t->output_pairs[i + 1]] |=
            UINT64_C(1) << (t->output_pairs[i] - 1);
    for (size_t s = 1; s < c->states; s++)
        c->shows[s] |= c->shows[c->super[s]];
    return NO_ROW;
}

static bool known_state(const struct ref_chart *c, int16_t s)
{
    return s >= 0 && (size_t)s < c->states;
}

/* "unknown source or target, other mark, mark 1 on a leaf" */
static size_t check_moves(const struct ref_tables *t, struct ref_chart *c)
{
    for (size_t m = 0; m < c->moves; m++) {
        const int16_t *row = t->moves + m * MOVE_ROW;
        if (!known_state(c, row[0]) || !known_state(c, row[1]))
            return m;
        if (row[2] != 0 && row[2] != 1)
            return m;
        if (row[2] == 1 && c->subs[row[1]] == 0)
            return m;
        c->move[m].source = (uint16_t)row[0];
        c->move[m].target = (uint16_t)row[1];
        c->move[m].history = row[2] == 1;
    }
    return NO_ROW;
}

/* Adds one literal that is not 0; false when a rule is broken. "No input or
 * timer stands twice in a move", so its bit may not be in either set yet. */
static bool add_literal(const struct ref_tables *t, const struct ref_chart *c,
                        int literal, struct literals *asks)
{
    int size = literal < 0 ? -literal : literal;
    if (size >= 1 && size <= MOST_INPUTS) {
        uint64_t bit = UINT64_C(1) << (size - 1);
        if ((uint32_t)size > t->inputs
            || ((asks->inputs_on | asks->inputs_off) & bit))
            return false;
        *(literal > 0 ? &asks->inputs_on : &asks->inputs_off) |= bit;
        return true;
    }
    if (size >= 101 && size <= 100 + MOST_TIMERS) {
        uint32_t bit = UINT32_C(1) << (size - 101);
        if ((size_t)size - 100 > c->timers
            || ((asks->timers_on | asks->timers_off) & bit))
            return false;
        *(literal > 0 ? &asks->timers_on : &asks->timers_off) |= bit;
        return true;
    }
    return false;
}

/* "0 is an unused place, and only 0 follows it." */
static size_t check_literals(const struct ref_tables *t, struct ref_chart *c)
{
    for (size_t m = 0; m < c->moves; m++) {
        const int16_t *places = t->moves + m * MOVE_ROW + 3;
        bool ended = false;
        for (size_t i = 0; i < LITERALS; i++) {
            if (places[i] == 0)
                ended = true;
            else if (ended || !add_literal(t, c, places[i], &c->move[m].asks))
                return m;
        }
    }
    return NO_ROW;
}

/* "timer literal, but some leaf at or below the source doesn't run it" */
static size_t check_idle(const struct ref_tables *t, struct ref_chart *c)
{
    (void)t;
    uint32_t everywhere[MOST_STATES]; /* timers that all leaves below run */
    for (size_t s = 0; s < c->states; s++)
        everywhere[s] = c->subs[s] == 0 ? c->runs[s] : UINT32_MAX;
    for (size_t s = c->states - 1; s > 0; s--)
        everywhere[c->super[s]] &= everywhere[s];
    for (size_t m = 0; m < c->moves; m++) {
        const struct literals *asks = &c->move[m].asks;
        if ((asks->timers_on | asks->timers_off)
            & ~everywhere[c->move[m].source])
            return m;
    }
    return NO_ROW;
}

static bool overlap(const struct ref_chart *c, const struct move *a,
                    const struct move *b)
{
    /* Inputs and timers are free, so both sets of literals can hold unless one
     * wants on what the other wants off. */
    if ((a->asks.inputs_on & b->asks.inputs_off)
        || (a->asks.inputs_off & b->asks.inputs_on)
        || (a->asks.timers_on & b->asks.timers_off)
        || (a->asks.timers_off & b->asks.timers_on))
        return false;
    return ref_at_or_above(c, a->source, b->source)
        || ref_at_or_above(c, b->source, a->source);
}

static size_t check_overlap(const struct ref_tables *t, struct ref_chart *c)
{
    (void)t;
    for (size_t m = 1; m < c->moves; m++)
        for (size_t earlier = 0; earlier < m; earlier++)
            if (overlap(c, &c->move[earlier], &c->move[m]))
                return m;
    return NO_ROW;
}

static uint8_t significant_bits(unsigned n)
{
    uint8_t bits = 0;
    for (; n != 0; n >>= 1)
        bits++;
    return bits;
}

/* "Its initial sub-state has code 0, the others 1, 2, and so on by rising
 * state number." */
static void give_codes(struct ref_chart *c)
{
    uint16_t last[MOST_STATES] = {0}; /* the last code given in each group */
    uint16_t begin = 0;
    for (size_t s = 0; s < c->states; s++) {
        c->listed[s] = begin;
        begin = (uint16_t)(begin + c->subs[s]);
    }
    for (size_t s = 1; s < c->states; s++) {
        uint16_t above = c->super[s];
        c->code[s] = c->initial[above] == s ? 0 : ++last[above];
        c->by_code[c->listed[above] + c->code[s]] = (uint16_t)s;
    }
}

/* "Groups stand one after the other by rising super-state number" */
static size_t check_flip_flops(const struct ref_tables *t, struct ref_chart *c)
{
    (void)t;
    give_codes(c);
    for (size_t s = 0; s < c->states; s++) {
        if (c->subs[s] == 0)
            continue;
        c->slot[s] = (uint16_t)c->supers++;
        c->width[s] = significant_bits(c->subs[s] - 1u);
        c->first[s] = (uint16_t)c->flip_flops;
        c->flip_flops += c->width[s];
    }
    return c->flip_flops > MOST_FLIP_FLOPS ? 0 : NO_ROW;
}

/* "Each check covers all its rows before the next begins." */
static const struct {
    enum ref_number number;
    size_t (*least_bad_row)(const struct ref_tables *t, struct ref_chart *c);
} checks[] = {
    {REF_SIZE, check_size},
    {REF_HIERARCHY, check_hierarchy},
    {REF_INITIAL, check_initial},
    {REF_PRESET, check_presets},
    {REF_TIMER_PAIR, check_timer_pairs},
    {REF_OUTPUT_PAIR, check_output_pairs},
    {REF_MOVE, check_moves},
    {REF_LITERAL, check_literals},
    {REF_IDLE_TIMER, check_idle},
    {REF_OVERLAP, check_overlap},
    {REF_FLIP_FLOPS, check_flip_flops},
};

struct ref_answer ref_accept(const struct ref_tables *t, struct ref_chart *c)
{
    memset(c, 0, sizeof *c);
    for (size_t i = 0; i < sizeof checks / sizeof checks[0]; i++) {
        size_t row = checks[i].least_bad_row(t, c);
        if (row != NO_ROW)
            return ref_refused(checks[i].number, row);
    }
    return ref_accepted(0);
}

struct ref_answer ref_check(const struct ref_tables *tables)
{
    struct ref_chart c;
    return ref_accept(tables, &c);
}
