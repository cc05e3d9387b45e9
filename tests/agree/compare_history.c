/* splicetuck_run_chart from the cleared state against the reading of demand 3:
 * leaves and output words over long traces, from the inputs and the list of
 * earlier leaves alone. */
#include "agree.h"

#include <string.h>

enum { MOST_TRACE = 400, TRACE = 30, MOST_PRESET = 86400000 };
enum { STATE_ROW = 2, MOVE_ROW = 11, MARK = 2 };

enum { SCANS, CHANGES, HISTORY, NESTED, TIMERS, ON };
static struct event events[] = {
    [SCANS] = {"scans", 0},
    [CHANGES] = {"scans that changed the leaf", 0},
    [HISTORY] = {"traces that differ without history", 0},
    [NESTED] = {"leaves two remembered levels below a history target", 0},
    [TIMERS] = {"traces that differ where no timer expires", 0},
    [ON] = {"output words other than 0", 0},
    {NULL, 0}
};

/* The slices of one case besides the tables. */
struct run {
    size_t state_len, scans;
    uint32_t state[MOST_STATE];
    uint64_t inputs[MOST_TRACE];
    struct lent state_after, words_in;
    struct twin leaves, words_out;
};

/* Words that stay for some scans let timers expire. */
static size_t any_trace(uint64_t inputs[MOST_TRACE])
{
    size_t scans = once_in(40) ? 0
        : 1 + below(once_in(6) ? MOST_TRACE : TRACE);
    uint32_t stay = 1 + below(6);
    for (size_t i = 0; i < scans; i++)
        inputs[i] = i > 0 && !once_in(stay) ? inputs[i - 1] : any64();
    return scans;
}

static void make_run(const struct draft *d, struct run *r)
{
    memset(r->state, 0, sizeof r->state); /* "All zero is the start." */
    r->state_len = (size_t)ref_state_length(&d->t).length;
    r->scans = any_trace(r->inputs);
    r->state_after = lend(r->state, r->state_len * sizeof r->state[0]);
    r->words_in = lend(r->inputs, r->scans * sizeof r->inputs[0]);
    r->leaves = lend_twice(NULL, r->scans * sizeof(uint16_t));
    r->words_out = lend_twice(NULL, r->scans * sizeof(uint64_t));
}

static void end_run(struct run *r)
{
    take_back(&r->state_after);
    take_back(&r->words_in);
    take_both_back(&r->leaves);
    take_both_back(&r->words_out);
}

/* Does the same trace of other tables, as long as the case's, differ? */
static bool differs_with(const struct ref_tables *t, const struct run *r)
{
    uint32_t state[MOST_STATE] = {0};
    uint16_t leaves[MOST_TRACE];
    uint64_t words_out[MOST_TRACE];
    ref_chart_run(t, state, r->state_len, r->inputs, r->scans, leaves,
                  r->scans, words_out, r->scans);
    return r->scans > 0
        && memcmp(leaves, r->leaves.reference, r->scans * sizeof *leaves) != 0;
}

static bool history_mattered(const struct draft *d, const struct run *r)
{
    static int16_t moves[sizeof d->moves / sizeof d->moves[0]];
    struct ref_tables t = d->t;
    memcpy(moves, d->moves, sizeof moves);
    for (size_t i = MARK; i < t.moves_len; i += MOVE_ROW)
        moves[i] = 0;
    t.moves = moves;
    return differs_with(&t, r);
}

static bool timers_mattered(const struct draft *d, const struct run *r)
{
    uint32_t presets[sizeof d->presets / sizeof d->presets[0]];
    struct ref_tables t = d->t;
    for (size_t i = 0; i < t.presets_len; i++)
        presets[i] = MOST_PRESET;
    t.presets = presets;
    return differs_with(&t, r);
}

/* How many states on the way from above down to s are not initial, or -1 if s
 * does not lie there. */
static int not_initial(const struct draft *d, unsigned above, unsigned s)
{
    int count = 0;
    while (s != above) {
        if (s == 0)
            return -1;
        unsigned super = d->states[s * STATE_ROW];
        count += d->states[super * STATE_ROW + 1] != s;
        s = super;
    }
    return count;
}

static bool nested(const struct draft *d, unsigned leaf)
{
    for (size_t i = 0; i < d->t.moves_len; i += MOVE_ROW)
        if (d->moves[i + MARK] == 1
            && not_initial(d, (unsigned)d->moves[i + 1], leaf) >= 2)
            return true;
    return false;
}

static void count_events(const struct draft *d, const struct run *r)
{
    const uint16_t *leaves = r->leaves.reference;
    const uint64_t *words_out = r->words_out.reference;
    events[SCANS].times += r->scans;
    for (size_t i = 0; i < r->scans; i++) {
        bool changed = i > 0 && leaves[i] != leaves[i - 1];
        events[CHANGES].times += changed;
        events[NESTED].times += changed && nested(d, leaves[i]);
        events[ON].times += words_out[i] != 0;
    }
    events[HISTORY].times += history_mattered(d, r);
    events[TIMERS].times += timers_mattered(d, r);
}

static uint32_t compare(void)
{
    const struct draft *d = any_tables(10);
    struct lent_tables l = lend_tables(&d->t);
    struct run r;
    make_run(d, &r);
    struct ref_answer due = ref_history(
        &d->t, r.inputs, r.scans, r.leaves.reference, r.scans,
        r.words_out.reference, r.scans);
    expect_answer(splicetuck_run_chart(
        TABLES(&d->t, l), r.state_after.at, r.state_len, r.words_in.at,
        r.scans, r.leaves.product.at, r.scans, r.words_out.product.at,
        r.scans), due);
    expect_same("leaves", &r.leaves);
    expect_same("words_out", &r.words_out);
    expect_kept("words_in", &r.words_in);
    expect_guards("state", &r.state_after);
    expect_tables_kept(&l);
    show_tables(&d->t);
    show_u64("words_in", r.inputs, r.scans);
    if (due.number == REF_ACCEPTED)
        count_events(d, &r);
    else
        expect_kept("state", &r.state_after);
    end_run(&r);
    take_tables_back(&l);
    return due.number;
}

const struct call compare_history = {
    .name = "history", .gives = GIVES_TABLES,
    .compare = compare, .events = events
};
