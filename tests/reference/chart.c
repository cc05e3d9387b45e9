/* "Meaning of a chart": the state that remembers, and its step. */
#include "tables.h"

/* A chart state as lent: a code for each super-state, then a value for each
 * timer. */
static uint32_t *timers_of(const struct ref_chart *c, uint32_t *state)
{
    return state + c->supers;
}

/* "Each super-state remembers one sub-state ... Following these from the root
 * gives the active path and the active leaf." */
static uint16_t active_leaf(const struct ref_chart *c, const uint32_t *state)
{
    uint16_t s = 0;
    while (c->subs[s] != 0)
        s = c->by_code[c->listed[s] + state[c->slot[s]]];
    return s;
}

/* "wrong length, code of no sub-state, timer not a whole number of scan steps
 * from 0 to N, or not 0 while idle" */
static bool state_is_good(const struct ref_chart *c, const uint32_t *state,
                          size_t state_len)
{
    if (state_len != c->supers + c->timers)
        return false;
    for (size_t s = 0; s < c->states; s++)
        if (c->subs[s] != 0 && state[c->slot[s]] >= c->subs[s])
            return false;
    uint32_t running = c->runs[active_leaf(c, state)];
    for (size_t i = 0; i < c->timers; i++) {
        uint32_t value = state[c->supers + i];
        if (value % c->step != 0 || value > c->top[i])
            return false;
        if (!(running >> i & 1) && value != 0)
            return false;
    }
    return true;
}

/* "It is expired when it runs and is at least its preset." */
static uint32_t expired_timers(const struct ref_chart *c, uint32_t running,
                               const uint32_t *values)
{
    uint32_t expired = 0;
    for (size_t i = 0; i < c->timers; i++)
        if ((running >> i & 1) && values[i] >= c->preset[i])
            expired |= UINT32_C(1) << i;
    return expired;
}

static bool hold(const struct literals *asks, uint64_t input, uint32_t expired)
{
    return (input & asks->inputs_on) == asks->inputs_on
        && (input & asks->inputs_off) == 0
        && (expired & asks->timers_on) == asks->timers_on
        && (expired & asks->timers_off) == 0;
}

/* "A move is enabled when its source is on the path and its literals hold. An
 * accepted chart never has two enabled". NULL when there is none. */
static const struct move *enabled_move(const struct ref_chart *c, uint16_t leaf,
                                       uint64_t input, uint32_t expired)
{
    uint16_t path[MOST_DEPTH + 1]; /* the path's state at each depth */
    for (uint16_t s = leaf;; s = c->super[s]) {
        path[c->depth[s]] = s;
        if (s == 0)
            break;
    }
    for (size_t m = 0; m < c->moves; m++) {
        const struct move *move = &c->move[m];
        uint8_t depth = c->depth[move->source];
        if (depth <= c->depth[leaf] && path[depth] == move->source
            && hold(&move->asks, input, expired))
            return move;
    }
    return NULL;
}

static void make_move(const struct ref_chart *c, const struct move *move,
                      uint32_t *state)
{
    /* "A move sets every super-state above its target to lead to the target." */
    for (uint16_t s = move->target; s != 0; s = c->super[s])
        state[c->slot[c->super[s]]] = c->code[s];
    /* "Mark 1: nothing at or below the target is set" */
    if (move->history)
        return;
    /* "the target, if a super-state, and those reached below it by initial
     * sub-states are set to initial", whose code is 0 */
    for (uint16_t s = move->target; c->subs[s] != 0; s = c->initial[s])
        state[c->slot[s]] = 0;
}

/* One step of the machine; gives the leaf after it. */
static uint16_t step(const struct ref_chart *c, uint32_t *state, uint64_t input)
{
    uint32_t *values = timers_of(c, state);
    uint16_t leaf = active_leaf(c, state);
    uint32_t ran = c->runs[leaf];
    const struct move *move =
        enabled_move(c, leaf, input, expired_timers(c, ran, values));
    if (move != NULL)
        make_move(c, move, state);
    leaf = active_leaf(c, state);
    /* "after a step it grows by the scan step if it ran before and runs after,
     * else it is 0"; "stops growing at N scan steps" */
    uint32_t goes_on = ran & c->runs[leaf];
    for (size_t i = 0; i < c->timers; i++) {
        if (!(goes_on >> i & 1))
            values[i] = 0;
        else if (values[i] < c->top[i])
            values[i] += c->step;
    }
    return leaf;
}

struct ref_answer ref_state_length(const struct ref_tables *tables)
{
    struct ref_chart c;
    struct ref_answer answer = ref_accept(tables, &c);
    if (answer.number == REF_ACCEPTED)
        answer.length = c.supers + c.timers;
    return answer;
}

struct ref_answer ref_chart_run(const struct ref_tables *tables,
                                uint32_t *state, size_t state_len,
                                const uint64_t *inputs, size_t scans,
                                uint16_t *leaves, size_t leaves_len,
                                uint64_t *outputs, size_t outputs_len)
{
    struct ref_chart c;
    struct ref_answer answer = ref_accept(tables, &c);
    if (answer.number != REF_ACCEPTED)
        return answer;
    if (!state_is_good(&c, state, state_len))
        return ref_refused(REF_STATE, 0);
    if (leaves_len != scans || outputs_len != scans)
        return ref_refused(REF_SCANS, 0);
    for (size_t i = 0; i < scans; i++) {
        leaves[i] = step(&c, state, inputs[i]);
        outputs[i] = c.shows[leaves[i]];
    }
    return ref_accepted(scans);
}

struct ref_answer ref_chart_step(const struct ref_tables *tables,
                                 uint32_t *state, size_t state_len,
                                 uint64_t input,
                                 uint16_t *leaf, uint64_t *output)
{
    return ref_chart_run(tables, state, state_len, &input, 1, leaf, 1, output,
                         1);
}

struct ref_answer ref_leaf(const struct ref_tables *tables,
                           const uint8_t *flip_flops, size_t len,
                           uint16_t *leaf)
{
    struct ref_chart c;
    struct ref_answer answer = ref_accept(tables, &c);
    if (answer.number != REF_ACCEPTED)
        return answer;
    uint16_t s = 0;
    while (c.subs[s] != 0) {
        unsigned code = 0; /* "lowest bit first" */
        for (unsigned bit = 0; bit < c.width[s]; bit++) {
            size_t b = c.first[s] + bit;
            if (b < len && flip_flops[b] != 0)
                code |= 1u << bit;
        }
        s = c.by_code[c.listed[s] + (code < c.subs[s] ? code : 0)];
    }
    *leaf = s;
    return ref_accepted(1);
}
