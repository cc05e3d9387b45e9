/* splicetuck_run_chart against the reference. */
#include "agree.h"

enum { SCANS, CHANGES, CLEARED, GROWN, ON };
static struct event events[] = {
    [SCANS] = {"scans", 0},
    [CHANGES] = {"scans that changed the leaf", 0},
    [CLEARED] = {"timers that ended at 0", 0},
    [GROWN] = {"timers that ended at their preset or above", 0},
    [ON] = {"output words other than 0", 0},
    {NULL, 0}
};

/* The slices of one case besides the tables. */
struct run {
    size_t state_len, scans, leaves_len, words_out_len;
    uint32_t state[MOST_STATE];
    uint64_t inputs[MOST_SCANS];
    struct twin state_after, leaves, words_out;
    struct lent words_in;
};

static void make_run(const struct draft *d, struct run *r)
{
    r->state_len = any_state(d, r->state);
    r->scans = any_inputs(r->inputs);
    r->leaves_len = any_result_length(r->scans);
    r->words_out_len = any_result_length(r->scans);
    r->state_after = lend_twice(r->state, r->state_len * sizeof r->state[0]);
    r->words_in = lend(r->inputs, r->scans * sizeof r->inputs[0]);
    r->leaves = lend_twice(NULL, r->leaves_len * sizeof(uint16_t));
    r->words_out = lend_twice(NULL, r->words_out_len * sizeof(uint64_t));
}

static void expect_run(const struct run *r)
{
    expect_same("state", &r->state_after);
    expect_same("leaves", &r->leaves);
    expect_same("words_out", &r->words_out);
    expect_kept("words_in", &r->words_in);
}

static void show_run(const struct run *r)
{
    show_u32("state", r->state, r->state_len);
    show_u64("words_in", r->inputs, r->scans);
    show_number("scans", r->scans);
    show_number("leaves_len", r->leaves_len);
    show_number("words_out_len", r->words_out_len);
}

static void end_run(struct run *r)
{
    take_both_back(&r->state_after);
    take_both_back(&r->leaves);
    take_both_back(&r->words_out);
    take_back(&r->words_in);
}

static void count_events(const struct draft *d, const struct run *r)
{
    const uint16_t *leaves = r->leaves.reference;
    const uint64_t *words_out = r->words_out.reference;
    const uint32_t *after = r->state_after.reference;
    size_t supers = r->state_len - d->t.presets_len;
    events[SCANS].times += r->scans;
    for (size_t i = 0; i < r->scans; i++) {
        events[CHANGES].times += i > 0 && leaves[i] != leaves[i - 1];
        events[ON].times += words_out[i] != 0;
    }
    for (size_t i = 0; i < d->t.presets_len; i++) {
        events[CLEARED].times += r->state[supers + i] != 0
            && after[supers + i] == 0;
        events[GROWN].times += r->state[supers + i] < d->presets[i]
            && after[supers + i] >= d->presets[i];
    }
}

static uint32_t compare(void)
{
    const struct draft *d = any_tables(6);
    struct lent_tables l = lend_tables(&d->t);
    struct run r;
    make_run(d, &r);
    struct ref_answer due = ref_chart_run(
        &d->t, r.state_after.reference, r.state_len, r.inputs, r.scans,
        r.leaves.reference, r.leaves_len, r.words_out.reference,
        r.words_out_len);
    expect_answer(splicetuck_run_chart(
        TABLES(&d->t, l), r.state_after.product.at, r.state_len, r.words_in.at,
        r.scans, r.leaves.product.at, r.leaves_len, r.words_out.product.at,
        r.words_out_len), due);
    expect_run(&r);
    expect_tables_kept(&l);
    show_tables(&d->t);
    show_run(&r);
    if (due.number == REF_ACCEPTED)
        count_events(d, &r);
    end_run(&r);
    take_tables_back(&l);
    return due.number;
}

const struct call compare_run_chart = {
    .name = "run_chart",
    .gives = GIVES_TABLES | GIVES(REF_STATE) | GIVES(REF_SCANS),
    .compare = compare, .events = events
};
