/* The random inputs. Nothing here judges an input: what it is worth is for the
 * reference and the product to say. The aim is only that the cases are rich:
 * charts whose moves fire and whose timers expire, and faults close to the
 * limits. */
#include "agree.h"

#include <stdio.h>
#include <stdlib.h>
#include <string.h>

/* "The limits belong to the chart" */
enum {
    STATES = 256, DEPTH = 8, MOVES = 512, INPUTS = 64, OUTPUTS = 64,
    TIMERS = 32, FLIP_FLOPS = 128, PAIRS = 2048, STEP = 1000, TIME = 86400000
};

/* Numbers a row, and of a move those before its literal places. */
enum { STATE_ROW = 2, MOVE_ROW = 11, PAIR_ROW = 2, LITERALS = 8, HEAD = 3 };

/* ---- Random numbers ---- */

static uint64_t generator;

/* splitmix64: short, and any start is a good one. */
uint64_t any64(void)
{
    uint64_t z = generator += UINT64_C(0x9E3779B97F4A7C15);
    z = (z ^ z >> 30) * UINT64_C(0xBF58476D1CE4E5B9);
    z = (z ^ z >> 27) * UINT64_C(0x94D049BB133111EB);
    return z ^ z >> 31;
}

void random_from(uint64_t seed, uint64_t number, const char *call)
{
    generator = seed;
    generator = any64() ^ number;
    for (; *call != '\0'; call++)
        generator = any64() ^ (unsigned char)*call;
}

uint32_t below(uint32_t n)
{
    return (uint32_t)((any64() >> 32) * n >> 32);
}

bool once_in(uint32_t n)
{
    return below(n) == 0;
}

void any_bytes(void *at, size_t size)
{
    uint8_t *bytes = at;
    for (size_t i = 0; i < size; i += sizeof(uint64_t)) {
        uint64_t some = any64();
        size_t rest = size - i;
        memcpy(bytes + i, &some, rest < sizeof some ? rest : sizeof some);
    }
}

void *must_alloc(size_t size)
{
    void *at = malloc(size == 0 ? 1 : size);
    if (at == NULL) {
        fprintf(stderr, "no memory\n");
        exit(2);
    }
    return at;
}

static int64_t one_of(const int64_t *values, size_t count)
{
    return values[below((uint32_t)count)];
}

#define ONE_OF(...)                                                     \
    one_of((const int64_t[]){__VA_ARGS__},                              \
           sizeof((const int64_t[]){__VA_ARGS__}) / sizeof(int64_t))

/* A row of n: the first and the last ones are where mistakes are made. */
static uint32_t any_row(size_t n)
{
    if (n == 0 || once_in(4))
        return 0;
    return once_in(4) ? (uint32_t)n - 1 : below((uint32_t)n);
}

/* ---- States ---- */

/* What the rest of a chart is chosen by. Learnt from valid states and timer
 * pairs, and kept while rules are broken. */
static struct {
    unsigned states, supers;
    uint8_t depth[STATES];
    uint16_t subs[STATES];       /* how many sub-states */
    uint16_t slot[STATES];       /* where a chart state has the code */
    uint32_t runs[STATES];       /* timers that run on a path down to here */
    uint32_t everywhere[STATES]; /* timers that all leaves here run */
} facts;

unsigned depth_of(const struct draft *d, unsigned s)
{
    unsigned depth = 0;
    for (; s != 0; s = d->states[s * STATE_ROW])
        depth++;
    return depth;
}

static unsigned width_of(unsigned subs)
{
    unsigned width = 0;
    while (subs > 1u << width)
        width++;
    return width;
}

unsigned flip_flops_of(const struct draft *d)
{
    unsigned subs[STATES] = {0}, sum = 0;
    for (size_t s = 1; s < d->t.states_len / STATE_ROW; s++)
        subs[d->states[s * STATE_ROW]]++;
    for (size_t s = 0; s < d->t.states_len / STATE_ROW; s++)
        sum += width_of(subs[s]);
    return sum;
}

static void add_state(struct draft *d, unsigned above)
{
    size_t s = d->t.states_len / STATE_ROW;
    uint16_t *initial = &d->states[above * STATE_ROW + 1];
    d->states[s * STATE_ROW] = (uint16_t)above;
    d->states[s * STATE_ROW + 1] = 0;
    d->t.states_len += STATE_ROW;
    if (s > 0 && (*initial == 0 || once_in(3)))
        *initial = (uint16_t)s;
}

/* Deep, flat, or anything between. */
static void any_states(struct draft *d, unsigned n)
{
    unsigned shape = below(3);
    add_state(d, 0);
    for (unsigned s = 1; s < n; s++) {
        unsigned above = shape == 0 ? below(s)
            : shape == 1 ? s - 1 - below(s < 3 ? s : 3)
            : below(s < 5 ? s : 5);
        if (depth_of(d, above) == DEPTH)
            above = d->states[above * STATE_ROW];
        add_state(d, above);
    }
}

/* So many flip-flops exactly, in groups of up to 3, as long as there are states
 * for them. */
static void any_states_with(struct draft *d, unsigned flip_flops)
{
    bool super[STATES] = {false};
    add_state(d, 0);
    /* The tries are bounded: all leaves could have depth 8. */
    for (unsigned tries = 100000; flip_flops > 0 && tries > 0; tries--) {
        unsigned s = below((uint32_t)(d->t.states_len / STATE_ROW));
        unsigned subs = (unsigned)ONE_OF(1, 2, 3, 3, 3, 4, 4, 5, 6, 7);
        if (d->t.states_len / STATE_ROW + subs > STATES)
            return;
        if (super[s] || depth_of(d, s) == DEPTH || width_of(subs) > flip_flops)
            continue;
        super[s] = true;
        flip_flops -= width_of(subs);
        while (subs-- > 0)
            add_state(d, s);
    }
}

static void learn_states(const struct draft *d)
{
    memset(&facts, 0, sizeof facts);
    facts.states = (unsigned)(d->t.states_len / STATE_ROW);
    for (unsigned s = 1; s < facts.states; s++) {
        uint16_t above = d->states[s * STATE_ROW];
        facts.depth[s] = (uint8_t)(facts.depth[above] + 1);
        facts.subs[above]++;
    }
    for (unsigned s = 0; s < facts.states; s++)
        if (facts.subs[s] != 0)
            facts.slot[s] = (uint16_t)facts.supers++;
}

static void learn_timers(const struct draft *d)
{
    for (size_t i = 0; i < d->t.timer_pairs_len; i += PAIR_ROW)
        facts.runs[d->timer_pairs[i + 1]] |=
            UINT32_C(1) << (d->timer_pairs[i] - 1);
    for (unsigned s = 1; s < facts.states; s++)
        facts.runs[s] |= facts.runs[d->states[s * STATE_ROW]];
    for (unsigned s = 0; s < facts.states; s++)
        facts.everywhere[s] = facts.subs[s] == 0 ? facts.runs[s] : UINT32_MAX;
    for (unsigned s = facts.states - 1; s > 0; s--)
        facts.everywhere[d->states[s * STATE_ROW]] &= facts.everywhere[s];
}

static bool at_or_above(const struct draft *d, unsigned above, unsigned s)
{
    while (facts.depth[s] > facts.depth[above])
        s = d->states[s * STATE_ROW];
    return s == above;
}

/* ---- Timers and pairs ---- */

static uint32_t any_preset(uint32_t step)
{
    if (once_in(10))
        return (uint32_t)ONE_OF(1, TIME, TIME - 1, step, 2 * (int64_t)step);
    return 1 + below(4 * step);
}

/* Each timer or output has its own share of the states; the root alone is
 * frequent, so that a timer runs at all leaves of something. */
static size_t any_pairs(uint16_t *pairs, unsigned firsts, unsigned states)
{
    size_t len = 0;
    unsigned rarest = (unsigned)ONE_OF(2, 8, 8);
    for (unsigned first = 1; first <= firsts; first++) {
        unsigned rare = 1 + below(rarest);
        bool root = once_in(3), none = once_in(8);
        for (unsigned s = 0; s < states && !none; s++) {
            if (root ? s != 0 : !once_in(rare))
                continue;
            if (len == PAIRS * PAIR_ROW)
                return len;
            pairs[len++] = (uint16_t)first;
            pairs[len++] = (uint16_t)s;
        }
    }
    return len;
}

/* ---- Moves ---- */

/* The literals of a move. Cubes that are split from one another never hold
 * together. */
struct cube {
    int16_t literals[LITERALS];
    unsigned n;
};

enum { MOST_CUBES = 40 };

static bool asks_about(const struct cube *c, int size)
{
    for (unsigned i = 0; i < c->n; i++)
        if (abs(c->literals[i]) == size)
            return true;
    return false;
}

static void add_literal(struct cube *c, int literal)
{
    if (c->n < LITERALS && !asks_about(c, abs(literal)))
        c->literals[c->n++] = (int16_t)literal;
}

static int any_input(const struct draft *d)
{
    uint32_t some = once_in(4) || d->t.inputs < 6 ? d->t.inputs : 6;
    return 1 + (int)below(some);
}

static unsigned any_cubes(const struct draft *d, struct cube cubes[MOST_CUBES])
{
    unsigned n = 1;
    unsigned splits = d->t.inputs == 0 ? 0 : below(once_in(6) ? MOST_CUBES : 7);
    cubes[0].n = 0;
    while (splits-- > 0) {
        struct cube *c = &cubes[below(n)];
        int input = any_input(d);
        if (c->n == LITERALS || asks_about(c, input))
            continue;
        cubes[n] = *c;
        add_literal(c, input);
        add_literal(&cubes[n++], -input);
    }
    for (unsigned i = 0; i < n && d->t.inputs > 0; i++)
        if (once_in(12)) /* a smaller cube stays apart from the others */
            for (unsigned more = below(20); more > 0; more--)
                add_literal(&cubes[i], once_in(2) ? any_input(d)
                                                  : -any_input(d));
    return n;
}

static void add_move(struct draft *d, unsigned source, struct cube c)
{
    int16_t *row = d->moves + d->t.moves_len;
    if (d->t.moves_len == MOVES * MOVE_ROW)
        return;
    for (unsigned i = 1; i < c.n; i++) { /* literals stand in any order */
        unsigned other = below(i + 1);
        int16_t literal = c.literals[i];
        c.literals[i] = c.literals[other];
        c.literals[other] = literal;
    }
    memset(row, 0, MOVE_ROW * sizeof *row);
    row[0] = (int16_t)source;
    row[1] = (int16_t)below(facts.states);
    if (at_or_above(d, (unsigned)row[1], source)) /* less often: it may stay */
        row[1] = (int16_t)below(facts.states);
    row[2] = facts.subs[row[1]] != 0 && once_in(2);
    memcpy(row + HEAD, c.literals, c.n * sizeof *row);
    d->t.moves_len += MOVE_ROW;
}

/* One move, or two that a timer of the source keeps apart. */
static void add_moves(struct draft *d, unsigned source, const struct cube *c)
{
    uint32_t timers = facts.everywhere[source];
    struct cube on = *c, off = *c;
    if (timers == 0 || c->n == LITERALS || once_in(3)) {
        add_move(d, source, *c);
        return;
    }
    unsigned timer = below(TIMERS);
    while (!(timers >> timer & 1))
        timer = (timer + 1) % TIMERS;
    add_literal(&on, 101 + (int)timer);
    add_literal(&off, -101 - (int)timer);
    if (!once_in(6))
        add_move(d, source, on);
    if (!once_in(4))
        add_move(d, source, off);
}

/* Sources of which none is above another may share a cube. */
static void any_moves_in(struct draft *d, const struct cube *c, bool crowded)
{
    unsigned sources[8], n = 0;
    for (unsigned s = 0; s < facts.states && crowded; s++)
        if (facts.subs[s] == 0 && !once_in(4))
            add_moves(d, s, c);
    for (unsigned tries = 1 + below(8); tries > 0 && !crowded; tries--) {
        unsigned s = below(facts.states);
        bool apart = true;
        for (unsigned i = 0; i < n; i++)
            apart = apart && !at_or_above(d, sources[i], s)
                && !at_or_above(d, s, sources[i]);
        if (!apart)
            continue;
        sources[n++] = s;
        add_moves(d, s, c);
    }
}

static void swap_rows(int16_t *a, int16_t *b)
{
    int16_t row[MOVE_ROW];
    memcpy(row, a, sizeof row);
    memmove(a, b, sizeof row); /* they may be the same row */
    memcpy(b, row, sizeof row);
}

static void any_moves(struct draft *d)
{
    struct cube cubes[MOST_CUBES];
    unsigned n = any_cubes(d, cubes);
    bool crowded = once_in(6);
    for (unsigned i = 0; i < n; i++)
        any_moves_in(d, &cubes[i], crowded);
    for (uint32_t i = (uint32_t)(d->t.moves_len / MOVE_ROW); i > 1; i--)
        swap_rows(d->moves + (i - 1) * MOVE_ROW,
                  d->moves + below(i) * MOVE_ROW);
}

/* ---- Charts ---- */

/* Nothing is left of the draft before: a case must not depend on others. */
static struct draft *new_draft(void)
{
    static struct draft d;
    memset(&d, 0, sizeof d);
    d.t = (struct ref_tables){
        .states = d.states, .moves = d.moves, .presets = d.presets,
        .timer_pairs = d.timer_pairs, .output_pairs = d.output_pairs
    };
    return &d;
}

static void any_frame(struct draft *d, bool large)
{
    d->t.step = (uint32_t)ONE_OF(1, 7, 100, 999, STEP, 1 + below(STEP));
    d->t.inputs = once_in(10) ? INPUTS : below(8);
    d->t.outputs = once_in(large ? 2 : 40) ? OUTPUTS : below(5);
    d->t.presets_len = once_in(large ? 2 : 40) ? TIMERS : below(4);
    for (size_t i = 0; i < d->t.presets_len; i++)
        d->presets[i] = any_preset(d->t.step);
}

/* A chart that keeps all rules but, perhaps, that of the flip-flops; of so many
 * flip-flops if that is not 0. */
static struct draft *any_chart_with(unsigned flip_flops)
{
    struct draft *d = new_draft();
    bool large = once_in(100);
    any_frame(d, large);
    if (flip_flops > 0)
        any_states_with(d, flip_flops);
    else if (large)
        any_states(d, (unsigned)ONE_OF(STATES, STATES, 100 + below(156)));
    else
        any_states(d, 1 + below((uint32_t)ONE_OF(3, 12, 12, 12, 12, 24, 40)));
    learn_states(d);
    d->t.timer_pairs_len = any_pairs(d->timer_pairs,
                                     (unsigned)d->t.presets_len, facts.states);
    d->t.output_pairs_len = any_pairs(d->output_pairs, d->t.outputs,
                                      facts.states);
    learn_timers(d);
    any_moves(d);
    return d;
}

static struct draft *any_accepted_chart(void)
{
    struct draft *d;
    do
        d = any_chart_with(once_in(60) ? FLIP_FLOPS - below(2) : 0);
    while (ref_check(&d->t).number != REF_ACCEPTED);
    return d;
}

/* ---- Broken rules: a fault, or a value at the good side of a limit ---- */

/* As many moves as n. Those that are there stand again, so that most of the new
 * ones are at fault themselves. */
static void grow_moves(struct draft *d, size_t n)
{
    size_t have = d->t.moves_len / MOVE_ROW * MOVE_ROW;
    if (have == 0) {
        have = MOVE_ROW;
        memset(d->moves, 0, MOVE_ROW * sizeof d->moves[0]);
    }
    for (size_t i = have; i < n * MOVE_ROW; i++)
        d->moves[i] = d->moves[i - have];
    d->t.moves_len = n * MOVE_ROW;
}

static void grow_states(struct draft *d, size_t n)
{
    if (d->t.states_len % STATE_ROW != 0)
        d->t.states_len--;
    while (d->t.states_len < n * STATE_ROW)
        add_state(d, 0);
}

/* Rows of all firsts and seconds, in order as far as there are so many. */
static void grow_pairs(uint16_t *pairs, size_t *len, unsigned firsts, size_t n)
{
    unsigned states = facts.states, most = firsts > 0 ? firsts : 1;
    for (size_t i = 0; i < n; i++) {
        pairs[i * PAIR_ROW] = (uint16_t)(1 + i / states % most);
        pairs[i * PAIR_ROW + 1] = (uint16_t)(i % states);
    }
    *len = n * PAIR_ROW;
}

/* No whole number of rows: one number less, or some more. */
static void break_length(size_t *len, size_t row)
{
    if (*len > 0 && once_in(2))
        *len -= 1;
    else
        *len += 1 + below((uint32_t)row - 1);
}

static void break_size(struct draft *d)
{
    size_t over = below(3); /* 0 is the limit itself */
    switch (below(14)) {
    case 0: d->t.states_len = below(2); break;
    case 1: break_length(&d->t.states_len, STATE_ROW); break;
    case 2: grow_states(d, STATES + over); break;
    case 3: break_length(&d->t.moves_len, MOVE_ROW); break;
    case 4: grow_moves(d, MOVES + over); break;
    case 5:
        while (d->t.presets_len < TIMERS + over)
            d->presets[d->t.presets_len++] = any_preset(1);
        break;
    case 6: break_length(&d->t.timer_pairs_len, PAIR_ROW); break;
    case 7:
        grow_pairs(d->timer_pairs, &d->t.timer_pairs_len,
                   (unsigned)d->t.presets_len, PAIRS + over);
        break;
    case 8: break_length(&d->t.output_pairs_len, PAIR_ROW); break;
    case 9:
        grow_pairs(d->output_pairs, &d->t.output_pairs_len, d->t.outputs % 99,
                   PAIRS + over);
        break;
    case 10: case 11:
        d->t.step = (uint32_t)ONE_OF(0, 1, STEP, STEP + 1, UINT32_MAX);
        break;
    case 12:
        d->t.inputs = (uint32_t)ONE_OF(INPUTS, INPUTS + 1, UINT32_MAX);
        break;
    default:
        d->t.outputs = (uint32_t)ONE_OF(OUTPUTS, OUTPUTS + 1, UINT32_MAX);
        break;
    }
}

/* The states 0 to `depth` in one chain. */
static void make_chain(struct draft *d, unsigned depth)
{
    grow_states(d, depth + 1u);
    for (unsigned s = 1; s <= depth; s++) {
        d->states[s * STATE_ROW] = (uint16_t)(s - 1);
        d->states[(s - 1) * STATE_ROW + 1] = (uint16_t)s;
    }
}

static void break_hierarchy(struct draft *d)
{
    unsigned n = facts.states, s = any_row(n);
    unsigned deepest = 0;
    for (unsigned i = 0; i < n; i++)
        if (facts.depth[i] >= facts.depth[deepest])
            deepest = i;
    switch (below(5)) {
    case 0: case 1:
        d->states[s * STATE_ROW] = (uint16_t)ONE_OF(s, s + 1, n, UINT16_MAX);
        break;
    case 2: d->states[0] = (uint16_t)ONE_OF(1, UINT16_MAX); break;
    case 3: make_chain(d, DEPTH + below(2)); break;
    default: /* one more below the deepest, of depth 9 if that has depth 8 */
        if (d->t.states_len == n * STATE_ROW && n < STATES)
            add_state(d, deepest);
        break;
    }
}

static void break_initial(struct draft *d)
{
    unsigned n = facts.states, s = any_row(n);
    uint16_t first = d->states[s * STATE_ROW + 1] % (STATES + 1);
    d->states[s * STATE_ROW + 1] =
        (uint16_t)ONE_OF(0, s, 1, n, UINT16_MAX, below(n), first + 1,
                         d->states[first * STATE_ROW + 1]);
}

static void break_presets(struct draft *d)
{
    if (d->t.presets_len == 0)
        d->presets[d->t.presets_len++] = 1;
    d->presets[any_row(d->t.presets_len)] =
        (uint32_t)ONE_OF(0, 0, 1, TIME, TIME + 1, TIME + 1, UINT32_MAX,
                         any64());
}

static void break_pairs(uint16_t *pairs, size_t *len, int64_t firsts)
{
    int64_t states = facts.states;
    if (*len < PAIR_ROW) {
        pairs[0] = 1;
        pairs[1] = 0;
        *len = PAIR_ROW;
    }
    uint32_t i = any_row(*len / PAIR_ROW);
    uint16_t *row = pairs + i * PAIR_ROW, *before = i > 0 ? row - 2 : row;
    uint16_t kept[PAIR_ROW] = {row[0], row[1]};
    switch (below(6)) {
    case 0: row[0] = (uint16_t)ONE_OF(0, firsts, firsts + 1, UINT16_MAX); break;
    case 1: row[1] = (uint16_t)ONE_OF(states - 1, states, UINT16_MAX); break;
    case 2: memmove(row, before, sizeof kept); break;
    case 3: row[1] = before[1]; break;
    case 4: row[1] = (uint16_t)below((uint32_t)states); break;
    default:
        memmove(row, before, sizeof kept);
        memcpy(before, kept, sizeof kept);
        break;
    }
}

static void break_timer_pairs(struct draft *d)
{
    break_pairs(d->timer_pairs, &d->t.timer_pairs_len,
                (int64_t)d->t.presets_len);
}

static void break_output_pairs(struct draft *d)
{
    break_pairs(d->output_pairs, &d->t.output_pairs_len, d->t.outputs);
}

/* Some move; a plain one from the root is added if there is none. */
static int16_t *any_move(struct draft *d)
{
    if (d->t.moves_len < MOVE_ROW) {
        memset(d->moves, 0, MOVE_ROW * sizeof d->moves[0]);
        d->t.moves_len = MOVE_ROW;
    }
    return d->moves + any_row(d->t.moves_len / MOVE_ROW) * MOVE_ROW;
}

static void break_moves(struct draft *d)
{
    int16_t *row = any_move(d);
    int64_t n = facts.states;
    unsigned leaf = below(facts.states);
    switch (below(4)) {
    case 0:
    case 1:
        row[below(2)] = (int16_t)ONE_OF(n, n, n - 1, -1, INT16_MIN, INT16_MAX);
        break;
    case 2: row[2] = (int16_t)ONE_OF(2, -1, INT16_MIN, INT16_MAX, 256); break;
    default:
        while (facts.subs[leaf] != 0)
            leaf++;
        row[1] = (int16_t)leaf;
        row[2] = 1;
        break;
    }
}

static unsigned literals_of(const int16_t *row)
{
    unsigned n = 0;
    while (n < LITERALS && row[HEAD + n] != 0)
        n++;
    return n;
}

static void break_literals(struct draft *d)
{
    int16_t *places = any_move(d) + HEAD;
    unsigned n = literals_of(places - HEAD), last = n < LITERALS ? n : n - 1;
    int64_t inputs = d->t.inputs % 99, timers = (int64_t)d->t.presets_len;
    int64_t size = ONE_OF(inputs, inputs + 1, INPUTS, INPUTS + 1, 99, 100, 101,
                          100 + timers, 101 + timers, 100 + TIMERS,
                          101 + TIMERS, INT16_MAX);
    switch (below(6)) {
    case 0: places[last] = INT16_MIN; break;
    case 1: /* the same thing twice */
        places[last] = (int16_t)ONE_OF(places[0], -places[0]);
        break;
    case 2: /* a number after a 0 */
        places[below(LITERALS)] = 0;
        places[LITERALS - 1] = (int16_t)ONE_OF(1, -1, 101, places[0]);
        break;
    case 3: places[below(LITERALS)] = (int16_t)size; break;
    default: places[last] = (int16_t)(once_in(2) ? size : -size); break;
    }
}

/* A timer literal at a source below which some leaf does not run it. */
static void break_idle(struct draft *d)
{
    int16_t *row = any_move(d);
    if (d->t.presets_len == 0)
        d->presets[d->t.presets_len++] = 1;
    unsigned n = literals_of(row);
    int literal = 101 + (int)below((uint32_t)d->t.presets_len);
    if (once_in(4) && d->t.timer_pairs_len > PAIR_ROW) {
        d->t.timer_pairs_len -= PAIR_ROW; /* some move may have needed it */
        return;
    }
    if (once_in(4))
        row[0] = 0;
    row[HEAD + (n < LITERALS ? n : n - 1)] =
        (int16_t)(once_in(2) ? literal : -literal);
}

/* A move that stands twice, perhaps with a few changes; or a wider cube. */
static void break_overlap(struct draft *d)
{
    int16_t *row = any_move(d), *other = any_move(d);
    unsigned n = literals_of(row);
    if (n > 0 && once_in(3)) {
        row[HEAD + n - 1] = 0;
        return;
    }
    if (d->t.moves_len < MOVES * MOVE_ROW && once_in(2)) {
        other = d->moves + d->t.moves_len / MOVE_ROW * MOVE_ROW;
        d->t.moves_len += MOVE_ROW;
    }
    int16_t target = other[1];
    memmove(other, row, MOVE_ROW * sizeof *row);
    if (once_in(3) && target >= 0 && (unsigned)target < facts.states) {
        other[1] = target;
        other[2] = 0;
    }
    if (once_in(3) && row[0] >= 0) /* the super-state of the same source */
        other[0] = (int16_t)d->states[(unsigned)row[0] % STATES * STATE_ROW];
    if (once_in(3) && n < LITERALS)
        other[HEAD + n] = (int16_t)ONE_OF(1, -2, 3, -101, 102);
}

static void (*const breaks[])(struct draft *d) = {
    break_size, break_hierarchy, break_initial, break_presets,
    break_timer_pairs, break_output_pairs, break_moves, break_literals,
    break_idle, break_overlap
};

enum { BREAKS = sizeof breaks / sizeof breaks[0] };

/* Small numbers of no plan at all. */
static struct draft *any_numbers(void)
{
    struct draft *d = any_accepted_chart();
    for (uint32_t i = below(20); i > 0; i--) {
        uint16_t some = (uint16_t)(once_in(3) ? any64() : below(8));
        switch (below(5)) {
        case 0: d->states[below(16)] = some; break;
        case 1: d->moves[below(33)] = (int16_t)some; break;
        case 2: d->presets[below(4)] = some; break;
        case 3: d->timer_pairs[below(12)] = some; break;
        default: d->output_pairs[below(12)] = some; break;
        }
    }
    return d;
}

/* One or two rules; the second may be the first again, at another row. */
static struct draft *any_broken_tables(void)
{
    if (once_in(20))
        return any_numbers();
    if (once_in(BREAKS + 1)) {
        struct draft *d = any_chart_with(FLIP_FLOPS + 1 + below(3));
        if (once_in(3))
            breaks[below(BREAKS)](d);
        return d;
    }
    struct draft *d = any_accepted_chart();
    breaks[below(BREAKS)](d);
    if (once_in(3))
        breaks[below(BREAKS)](d);
    return d;
}

const struct draft *any_tables(uint32_t broken)
{
    return once_in(broken) ? any_broken_tables() : any_accepted_chart();
}

/* ---- Overlaps ---- */

/* A move of no plan: literals of things that it may ask about, the last ones
 * more often. */
static void add_any_move(struct draft *d)
{
    unsigned source = below(facts.states);
    struct cube c = {.n = 0};
    for (uint32_t tries = below(once_in(3) ? 20 : 4); tries > 0; tries--) {
        uint32_t timers = (uint32_t)d->t.presets_len, inputs = d->t.inputs;
        uint32_t timer = once_in(3) ? timers : 1 + below(timers);
        int literal = inputs == 0 ? 0 : once_in(8) ? (int)inputs
                                                   : 1 + (int)below(inputs);
        if (timers > 0 && once_in(2)
            && facts.everywhere[source] >> (timer - 1) & 1)
            literal = 100 + (int)timer;
        if (literal != 0)
            add_literal(&c, once_in(2) ? literal : -literal);
    }
    add_move(d, source, c);
}

/* A move that meets more of the others: a literal less, a literal turned round,
 * or another source on its path. */
static void widen_move(struct draft *d)
{
    int16_t *row = any_move(d);
    unsigned n = literals_of(row), some = n == 0 ? 0 : below(n);
    unsigned s = below(facts.states);
    switch (below(4)) {
    case 0:
    case 1:
        if (n == 0)
            break;
        row[HEAD + some] = row[HEAD + n - 1];
        row[HEAD + n - 1] = 0;
        break;
    case 2: row[HEAD + some] = (int16_t)-row[HEAD + some]; break;
    default:
        if (at_or_above(d, (unsigned)row[0], s) || once_in(4))
            row[0] = (int16_t)s;
        break;
    }
}

const struct draft *any_overlaps(void)
{
    struct draft *d = any_accepted_chart();
    if (once_in(4)) /* none of the moves that were kept apart */
        d->t.moves_len = 0;
    for (uint32_t i = 1 + below(once_in(3) ? 20 : 3); i > 0; i--)
        if (once_in(2))
            add_any_move(d);
        else
            widen_move(d);
    if (once_in(4))
        break_overlap(d);
    return d;
}

/* ---- Instruction words ---- */

enum operator {
    LD = 1, LDN, AND, ANDN, OR, CLOSE, ST, S, R, CAL, LD_TIME
};

/* What an operand begins with; its number is added. */
enum {
    MX = 0, IX = 384, QX = 512, Q = 768, IN = 1024, PT = 1280, T = 1536,
    FALSE_OPERAND = 2000, TRUE_OPERAND = 2001
};

#define A_WORD UINT32_C(134217728)

/* Puts `count` words in the place of `gone` words. */
static void splice_words(struct list *l, size_t at, size_t gone,
                         const uint32_t *words, size_t count)
{
    size_t len = l->len - gone + count, after = l->len - at - gone;
    uint32_t *spliced = must_alloc(len * sizeof *spliced);
    memcpy(spliced, l->words, at * sizeof *spliced);
    if (count > 0)
        memcpy(spliced + at, words, count * sizeof *spliced);
    memcpy(spliced + at + count, l->words + at + gone, after * sizeof *spliced);
    free(l->words);
    *l = (struct list){.words = spliced, .len = len, .room = len};
}

static void push(struct list *l, enum operator operator, uint32_t operand)
{
    if (l->len == l->room) {
        size_t room = 2 * l->room + 64;
        uint32_t *words = must_alloc(room * sizeof *words);
        memcpy(words, l->words, l->len * sizeof *words);
        free(l->words);
        l->words = words;
        l->room = room;
    }
    l->words[l->len++] = (uint32_t)operator * A_WORD + operand;
}

static uint32_t any_mx(void)
{
    return MX + (once_in(20) ? 250 + below(6) : below(6));
}

/* `named` is the highest block whose Q may be tested. */
static uint32_t any_test(unsigned named)
{
    if (named > 0 && once_in(4))
        return Q + 1 + below(named);
    if (once_in(2))
        return any_mx();
    return IX + 1 + (once_in(8) ? below(64) : below(4));
}

static void any_tests(struct list *l, unsigned named, bool brackets)
{
    if (once_in(8))
        push(l, LD, once_in(2) ? TRUE_OPERAND : FALSE_OPERAND);
    else
        push(l, once_in(2) ? LD : LDN, any_test(named));
    for (uint32_t more = below(4); more > 0; more--) {
        if (!brackets || !once_in(3)) {
            push(l, once_in(2) ? AND : ANDN, any_test(named));
            continue;
        }
        push(l, OR, 0);
        any_tests(l, named, false);
        push(l, CLOSE, 0);
    }
}

static void any_timer_rung(struct list *l, unsigned n, unsigned named)
{
    uint32_t range = (uint32_t)ONE_OF(3, 30, 600, 3000);
    any_tests(l, named, true);
    push(l, ST, IN + n);
    push(l, LD_TIME,
         once_in(16) ? (uint32_t)ONE_OF(1, TIME) : 1 + below(range));
    push(l, ST, PT + n);
    push(l, CAL, T + n);
}

static void any_rung(struct list *l, unsigned named)
{
    any_tests(l, named, true);
    for (uint32_t stores = 1 + below(once_in(8) ? 12 : 3); stores > 0; stores--)
        switch (below(4)) {
        case 0: push(l, S, any_mx()); break;
        case 1: push(l, R, any_mx()); break;
        case 2: push(l, ST, any_mx()); break;
        default:
            push(l, ST, QX + 1 + (once_in(8) ? below(64) : below(4)));
            break;
        }
}

/* Most of these no chart gives. Once in a while bodies name more blocks than
 * have a rung: "a body may test T5.Q while T5 can still come". */
static void any_program(struct list *l)
{
    unsigned blocks = once_in(30) ? 29 + below(4) : below(4);
    unsigned late = blocks + (once_in(8) ? 1 + below(2) : 0);
    unsigned named = late > 32 && !once_in(4) ? 32 : late;
    for (unsigned n = 1; n <= blocks; n++)
        any_timer_rung(l, n, named);
    for (uint32_t rungs = below(8); rungs > 0; rungs--)
        any_rung(l, once_in(3) ? named : blocks);
}

/* The reference's own text of the chart, read back: only its words matter here,
 * and a list that is wrong is still a list to compare. */
static void any_program_of_chart(struct list *l)
{
    const struct draft *d = any_accepted_chart();
    size_t len = (size_t)ref_write_tables(&d->t, NULL, 0).place;
    uint8_t *text = must_alloc(len);
    ref_write_tables(&d->t, text, len);
    size_t room = (size_t)ref_read_text(text, len, NULL, 0).place;
    l->words = must_alloc(room * sizeof *l->words);
    l->room = room;
    l->len = (size_t)ref_read_text(text, len, l->words, room).length;
    free(text);
}

/* An operand near an end of its kind. */
static uint32_t any_operand(void)
{
    uint32_t base = (uint32_t)ONE_OF(MX, IX, QX, Q, IN, PT, T);
    uint32_t most = base == MX ? 255 : base == IX || base == QX ? 64 : 32;
    if (once_in(4))
        return (uint32_t)ONE_OF(0, 256, 383, 1999, FALSE_OPERAND, TRUE_OPERAND,
                                2002, A_WORD - 1);
    return base + (uint32_t)ONE_OF(0, 1, 2, 3, most, most + 1);
}

static uint32_t any_operator(void)
{
    return once_in(12) ? below(32) : 1 + below(11);
}

static uint32_t any_word(void)
{
    return any_operator() * A_WORD + any_operand();
}

/* The same operator with another operand, or the other way round. */
static uint32_t similar_word(uint32_t word)
{
    uint32_t operator = word / A_WORD, operand = word % A_WORD;
    if (once_in(4))
        return any_operator() * A_WORD + operand;
    if (operator == LD_TIME)
        return operator * A_WORD
            + (uint32_t)ONE_OF(0, 0, 1, TIME, TIME + 1, TIME + 1, A_WORD - 1);
    return operator * A_WORD + any_operand();
}

/* The index of a time, of which a list has few; 0 if it has none. */
static uint32_t any_time_of(const struct list *l)
{
    uint32_t n = 0, found = 0;
    for (uint32_t i = 0; i < l->len; i++)
        if (l->words[i] / A_WORD == LD_TIME && once_in(++n))
            found = i;
    return found;
}

static void damage_words(struct list *l)
{
    uint32_t at = once_in(6) ? any_time_of(l) : any_row(l->len);
    uint32_t other = any_row(l->len);
    uint32_t word = l->len > 0 && once_in(2) ? l->words[other] : any_word();
    size_t one = l->len > 0;
    uint32_t some = one ? l->words[at] : word;
    switch (below(10)) {
    case 0: splice_words(l, at, one, &word, 1); break;
    case 1: splice_words(l, at, 0, &word, 1); break;
    case 2: splice_words(l, l->len, 0, &word, 1); break;
    case 3: splice_words(l, at, one, NULL, 0); break;
    case 4: l->len = one ? below((uint32_t)l->len) : 0; break;
    case 5: /* two words swapped */
        splice_words(l, at, one, one ? &l->words[other] : &word, 1);
        l->words[other] = some;
        break;
    case 6: /* the next operand, or the one before */
        some += once_in(2) ? 1 : UINT32_MAX;
        splice_words(l, at, one, &some, 1);
        break;
    case 7:
        some ^= UINT32_C(1) << below(32);
        splice_words(l, at, one, &some, 1);
        break;
    default:
        some = similar_word(some);
        splice_words(l, at, one, &some, 1);
        break;
    }
}

struct list any_words(uint32_t damaged)
{
    struct list l = {.words = must_alloc(0)};
    if (once_in(4)) {
        free(l.words);
        any_program_of_chart(&l);
    } else {
        any_program(&l);
    }
    if (once_in(damaged))
        for (uint32_t times = once_in(4) ? 2 : 1; times > 0; times--)
            damage_words(&l);
    return l;
}

/* ---- Texts ---- */

void splice_bytes(struct text *x, size_t at, size_t gone, const void *bytes,
                  size_t count)
{
    size_t len = x->len - gone + count, after = x->len - at - gone;
    if (len > x->room) {
        uint8_t *grown = must_alloc(2 * len);
        memcpy(grown, x->bytes, x->len);
        free(x->bytes);
        x->bytes = grown;
        x->room = 2 * len;
    }
    memmove(x->bytes + at + count, x->bytes + at + gone, after);
    if (count > 0)
        memcpy(x->bytes + at, bytes, count);
    x->len = len;
}

static void put_line(struct text *x, const char *line)
{
    splice_bytes(x, x->len, 0, line, strlen(line));
    splice_bytes(x, x->len, 0, "\n", 1);
}

/* A line for any word at all: operands past the end of their kind are written
 * as what they would be, %MX256 or T33.Q. */
static void line_of(uint32_t word, char line[64])
{
    static const char *const operators[] = {
        "NOP", "LD", "LDN", "AND", "ANDN", "OR(", ")", "ST", "S", "R", "CAL"
    };
    static const struct { uint32_t base; const char *head, *tail; } kinds[] = {
        {T, "T", ""}, {PT, "T", ".PT"}, {IN, "T", ".IN"}, {Q, "T", ".Q"},
        {QX, "%QX", ""}, {IX, "%IX", ""}, {MX, "%MX", ""}
    };
    uint32_t operator = word / A_WORD, operand = word % A_WORD;
    const char *name = operator <= CAL ? operators[operator] : "XOR";
    unsigned kind = 0;
    while (operand < kinds[kind].base)
        kind++;
    if (operator == LD_TIME)
        snprintf(line, 64, "LD T#%lums", (unsigned long)operand);
    else if ((operator == OR || operator == CLOSE) && operand == 0)
        snprintf(line, 64, "%s", name);
    else if (operand == TRUE_OPERAND || operand == FALSE_OPERAND)
        snprintf(line, 64, "%s %s", name,
                 operand == TRUE_OPERAND ? "TRUE" : "FALSE");
    else
        snprintf(line, 64, "%s %s%lu%s", name, kinds[kind].head,
                 (unsigned long)(operand - kinds[kind].base),
                 kinds[kind].tail);
}

/* A VAR part that declares nothing is a fault; once in a while there is one. */
static struct text text_of(const struct list *l, unsigned declared)
{
    struct text x = {.bytes = must_alloc(256), .room = 256};
    bool var = declared > 0 || once_in(40);
    char line[64];
    put_line(&x, "PROGRAM CHART");
    if (var)
        put_line(&x, "VAR");
    for (unsigned n = 1; n <= declared; n++) {
        snprintf(line, sizeof line, "T%u : TON;", n);
        put_line(&x, line);
    }
    if (var)
        put_line(&x, "END_VAR");
    for (size_t i = 0; i < l->len; i++) {
        line_of(l->words[i], line);
        put_line(&x, line);
    }
    put_line(&x, "END_PROGRAM");
    return x;
}

/* Lines that stand in some texts, and lines that only nearly do. */
static const char *const lines[] = {
    "", " ", "PROGRAM CHART", "PROGRAM CHART ", "PROGRAM", "VAR", "END_VAR",
    "END_PROGRAM", "END_PROGRAM;", "T0 : TON;", "T1 : TON;", "T01 : TON;",
    "T2 : TON;", "T3 : TON;", "T32 : TON;", "T33 : TON;", "T1 : TON",
    "T1: TON;",
    "LD TRUE", "LD FALSE", "LDN TRUE", "AND TRUE", "ST TRUE", "LD True",
    "LD  TRUE", " LD TRUE", "LD TRUE ", "LD TRUE\r", "LD\tTRUE", "ld TRUE",
    "LD %MX0", "LD %MX00", "LD %MX01", "LD %MX255", "LD %MX256", "LD %MX-1",
    "LD %MX+1", "LD %MX", "LD %MX4294967296", "LD %MX18446744073709551617",
    "LD MX0", "LD %mx0", "LD %IX0", "LD %IX1", "LD %IX64", "LD %IX65",
    "LD %IX01", "LD %QX1", "LD T1.Q", "LD T1.q", "LD T01.Q", "LD T0.Q",
    "LD T32.Q", "LD T33.Q", "LD T4294967297.Q", "LD T1", "LD T1.IN", "LD T.Q",
    "LD T#0ms", "LD T#1ms", "LD T#01ms", "LD T#86400000ms", "LD T#86400001ms",
    "LD T#4294967297ms", "LD T#18446744073709551617ms", "LD T#ms", "LD T#5",
    "LD T#5m", "LD T#5mss", "LD T#5 ms", "LD t#5ms", "LD", "LD ", "AND %MX0",
    "ANDN %IX2", "AND T1.Q", "AND %QX1", "AND T#5ms", "OR(", "OR (", "OR",
    "OR( LD TRUE", "OR %MX0", "OR()", ")", ") ", "(", "ST %MX0", "ST %MX255",
    "ST %MX256", "ST %QX0", "ST %QX1", "ST %QX64", "ST %QX65", "ST %IX1",
    "ST T1.Q", "ST T1.IN", "ST T2.IN", "ST T1.PT", "ST T2.PT", "ST T33.IN",
    "STN %MX0", "S %MX0", "S %QX1", "S %IX1", "S T1.Q", "R %MX255", "R %MX256",
    "R %QX1", "CAL T1", "CAL T2", "CAL T33", "CAL T1.Q", "CAL", "NOP",
};

static void any_line(char line[64])
{
    if (once_in(2))
        line_of(any_word(), line);
    else
        snprintf(line, 64, "%s",
                 lines[below(sizeof lines / sizeof lines[0])]);
}

/* Where some line begins, and how long it is with its LF. */
static size_t any_line_of(const struct text *x, size_t *len)
{
    size_t begin = any_row(x->len), end;
    if (begin > 0 && begin + 1 == x->len)
        begin--; /* the last line, not what follows its LF */
    while (begin > 0 && x->bytes[begin - 1] != '\n')
        begin--;
    for (end = begin; end < x->len && x->bytes[end] != '\n'; end++)
        continue;
    *len = end < x->len ? end + 1 - begin : end - begin;
    return begin;
}

static void damage_lines(struct text *x)
{
    char line[64], moved[64];
    size_t len, other_len, at = any_line_of(x, &len);
    any_line(line);
    strcat(line, "\n");
    switch (below(5)) {
    case 0: splice_bytes(x, at, 0, line, strlen(line)); break;
    case 1: splice_bytes(x, at, len, line, strlen(line)); break;
    case 2: splice_bytes(x, at, len, NULL, 0); break;
    case 3: splice_bytes(x, x->len, 0, line, strlen(line)); break;
    default: /* moved elsewhere, or stands twice */
        if (len > sizeof moved)
            break;
        memcpy(moved, x->bytes + at, len);
        if (once_in(2))
            splice_bytes(x, at, len, NULL, 0);
        splice_bytes(x, any_line_of(x, &other_len), 0, moved, len);
        break;
    }
}

static void damage_bytes(struct text *x)
{
    static const char near[] = "\n\n  019.#%:;()_TQLDANMXIx\r\t";
    uint8_t byte = once_in(3) ? (uint8_t)any64()
                              : (uint8_t)near[below(sizeof near)];
    uint32_t at = any_row(x->len);
    size_t one = x->len > 0;
    switch (below(6)) {
    case 0: splice_bytes(x, at, one, &byte, 1); break;
    case 1: splice_bytes(x, at, 0, &byte, 1); break;
    case 2: splice_bytes(x, x->len, 0, &byte, 1); break;
    case 3: splice_bytes(x, at, one, NULL, 0); break;
    case 4: x->len = x->len > 0 ? below((uint32_t)x->len) : 0; break;
    default:
        if (x->len > 0)
            x->bytes[at] ^= (uint8_t)(1u << below(8));
        break;
    }
}

static bool is_digit(const struct text *x, size_t i)
{
    return i < x->len && x->bytes[i] >= '0' && x->bytes[i] <= '9';
}

/* Another number, or a leading zero. Some of the numbers are small again when
 * they are cut to 32 or 64 bits. */
static void damage_number(struct text *x)
{
    static const char *const numbers[] = {
        "", "0", "00", "1", "2", "32", "33", "64", "65", "255", "256",
        "86400000", "86400001", "4294967296", "4294967297",
        "18446744073709551616", "18446744073709551617"
    };
    const char *number = numbers[below(sizeof numbers / sizeof numbers[0])];
    size_t at = any_row(x->len), end;
    while (at < x->len && !is_digit(x, at))
        at++;
    for (end = at; is_digit(x, end); end++)
        continue;
    if (end == at)
        return;
    if (once_in(5))
        splice_bytes(x, at, 0, "0", 1);
    else
        splice_bytes(x, at, end - at, number, strlen(number));
}

/* The text up to the end of some line: only lines are missing. */
static void truncate_lines(struct text *x)
{
    size_t len;
    x->len = any_line_of(x, &len);
}

struct text any_text(uint32_t damaged)
{
    struct list l = any_words(3 * damaged);
    unsigned declared = 0;
    for (size_t i = 0; i < l.len; i++)
        declared += l.words[i] / A_WORD == CAL;
    if (once_in(20))
        declared = (unsigned)ONE_OF(0, declared + 1, 31, 32, 33);
    struct text x = text_of(&l, declared);
    free(l.words);
    if (!once_in(damaged))
        return x;
    for (uint32_t times = once_in(4) ? 2 : 1; times > 0; times--)
        switch (below(7)) {
        case 0: truncate_lines(&x); break;
        case 1: case 2: damage_lines(&x); break;
        case 3: case 4: damage_number(&x); break;
        default: damage_bytes(&x); break;
        }
    return x;
}

/* ---- Result slices, scans ---- */

size_t any_room(uint64_t needed)
{
    uint32_t n = (uint32_t)needed;
    switch (below(10)) {
    case 0: return n > 0 ? n - 1 : 0;
    case 1: return below(n + 1);
    case 2: return once_in(2) ? 0 : n + 1;
    case 3: case 4: return n + 1 + below(40);
    default: return n;
    }
}

uint32_t any_step(void)
{
    if (once_in(12))
        return (uint32_t)ONE_OF(0, STEP + 1, UINT32_MAX, any64());
    return (uint32_t)ONE_OF(1, 7, 100, STEP, 1 + below(STEP));
}

/* Words that stay for some scans let timers expire. */
size_t any_inputs(uint64_t inputs[MOST_SCANS])
{
    size_t scans = once_in(12) ? 0 : 1 + below(once_in(8) ? MOST_SCANS : 16);
    uint32_t stay = 1 + below(4);
    for (size_t i = 0; i < scans; i++)
        inputs[i] = i > 0 && !once_in(stay) ? inputs[i - 1] : any64();
    return scans;
}

size_t any_result_length(size_t scans)
{
    if (once_in(16))
        return scans + 1;
    if (once_in(16))
        return scans > 0 ? scans - 1 : 0;
    return once_in(40) ? 0 : scans;
}

/* ---- Chart states ---- */

/* "Its initial sub-state has code 0, the others 1, 2, and so on by rising state
 * number." */
static unsigned sub_state(const struct draft *d, unsigned above, uint32_t code)
{
    unsigned initial = d->states[above * STATE_ROW + 1], s = above;
    if (code == 0)
        return initial;
    while (code > 0) {
        s++;
        code -= d->states[s * STATE_ROW] == above && s != initial;
    }
    return s;
}

static unsigned leaf_of(const struct draft *d, const uint32_t *codes)
{
    unsigned s = 0;
    while (facts.subs[s] != 0)
        s = sub_state(d, s, codes[facts.slot[s]]);
    return s;
}

static void any_codes(uint32_t *codes)
{
    for (unsigned s = 0; s < facts.states; s++)
        if (facts.subs[s] != 0)
            codes[facts.slot[s]] = below(facts.subs[s]);
}

static uint32_t scan_steps(const struct draft *d, size_t timer)
{
    return (d->presets[timer] + d->t.step - 1) / d->t.step;
}

static void any_values(const struct draft *d, unsigned leaf, uint32_t *values)
{
    for (size_t i = 0; i < d->t.presets_len; i++) {
        uint32_t n = scan_steps(d, i);
        if (facts.runs[leaf] >> i & 1)
            values[i] = d->t.step
                * (uint32_t)ONE_OF(0, n, n - 1, below(n + 1), below(n + 1));
    }
}

static void damage_value(const struct draft *d, unsigned leaf,
                         uint32_t *values)
{
    size_t i = any_row(d->t.presets_len);
    uint32_t top = scan_steps(d, i) * d->t.step;
    bool idle = !(facts.runs[leaf] >> i & 1);
    values[i] = (uint32_t)ONE_OF(values[i] + 1, top + 1, top - 1,
                                 top + d->t.step, UINT32_MAX, d->presets[i],
                                 idle ? d->t.step : top + d->t.step);
}

/* Gives the length to lend. */
static size_t damage_state(const struct draft *d, uint32_t *state, size_t len)
{
    unsigned leaf = leaf_of(d, state), s = any_row(facts.states);
    switch (below(5)) {
    case 0: return len > 0 ? len - 1 : 1;
    case 1: return len + 1 + below(2);
    case 2: case 3:
        if (d->t.presets_len > 0) {
            damage_value(d, leaf, state + facts.supers);
            return len;
        }
        /* fall through */
    default:
        for (; facts.subs[s] == 0 && s > 0; s--)
            continue;
        if (facts.subs[s] != 0)
            state[facts.slot[s]] =
                (uint32_t)ONE_OF(facts.subs[s], facts.subs[s] - 1, UINT32_MAX,
                                 (int64_t)1 << width_of(facts.subs[s]));
        return len;
    }
}

size_t any_state(const struct draft *d, uint32_t state[MOST_STATE])
{
    struct ref_answer answer = ref_state_length(&d->t);
    size_t len = (size_t)answer.length;
    memset(state, 0, MOST_STATE * sizeof *state);
    if (answer.number != REF_ACCEPTED) {
        len = below(12);
        if (once_in(2))
            any_bytes(state, len * sizeof *state);
        return len;
    }
    learn_states(d);
    learn_timers(d);
    if (!once_in(3)) { /* all zero is the start */
        any_codes(state);
        any_values(d, leaf_of(d, state), state + facts.supers);
    }
    return once_in(5) ? damage_state(d, state, len) : len;
}

/* ---- Controllers ---- */

static void any_block(struct ref_block *b, uint32_t time, uint32_t step)
{
    uint32_t less = time >= step ? time - step : 0;
    b->in = (uint8_t)below(2);
    b->q = (uint8_t)below(2);
    b->last_in = (uint8_t)!once_in(3);
    b->pt = once_in(2) ? time : (uint32_t)any64();
    b->et = (uint32_t)ONE_OF(0, time, time - (time > 0), less,
                             below(time + 1));
}

/* The times of the timer rungs, as far as there are blocks. */
static void times_of(const struct list *l, uint32_t times[MOST_LENT_BLOCKS])
{
    size_t n = 0;
    for (size_t i = 0; i < l->len && n < MOST_LENT_BLOCKS; i++)
        if (l->words[i] / A_WORD == LD_TIME)
            times[n++] = l->words[i] % A_WORD;
}

static void damage_controller(struct controller *k, const uint32_t *times)
{
    uint32_t block = any_row(k->blocks_len);
    switch (below(6)) {
    case 0: k->flip_flops_len += 1 + below(2); break;
    case 1: k->flip_flops_len -= k->flip_flops_len > 0; break;
    case 2: k->blocks_len += 1 + below(2); break;
    case 3: k->blocks_len -= k->blocks_len > 0; break;
    case 4:
        k->blocks[block].et = (uint32_t)ONE_OF(
            times[block] + (int64_t)1, times[block], UINT32_MAX);
        break;
    default:
        k->flip_flops[any_row(k->flip_flops_len)] =
            (uint8_t)ONE_OF(2, 255, 128, 3);
        break;
    }
}

void any_controller(const struct list *l, uint32_t step, struct controller *k)
{
    uint32_t times[MOST_LENT_BLOCKS] = {0};
    uint64_t flip_flops = below(8), blocks = below(4);
    ref_controller_size(l->words, l->len, &flip_flops, &blocks);
    memset(k, 0, sizeof *k);
    k->flip_flops_len = (size_t)flip_flops;
    k->blocks_len = (size_t)blocks;
    times_of(l, times);
    if (!once_in(3)) { /* all zero is the start */
        for (size_t i = 0; i < k->flip_flops_len; i++)
            k->flip_flops[i] = (uint8_t)below(2);
        for (size_t i = 0; i < k->blocks_len; i++)
            any_block(&k->blocks[i], times[i], step);
    }
    if (once_in(5))
        damage_controller(k, times);
}
