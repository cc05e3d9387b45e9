/* splicetuck_step_chart against the reference: a scan, and on an accepted chart
 * some more, each from the state that the scan before it left. */
#include "agree.h"

#include <inttypes.h>

enum { MOST_STEPS = 8 };

enum { SCANS, CHANGES, EXPIRED, ON };
static struct event events[] = {
    [SCANS] = {"scans", 0},
    [CHANGES] = {"scans that changed the leaf", 0},
    [EXPIRED] = {"timers that reached their preset in a scan", 0},
    [ON] = {"output words other than 0", 0},
    {NULL, 0}
};

/* What a scan shows; "Both are 0 when refused". */
struct shown {
    uint16_t leaf;
    uint64_t outputs;
};

static void expect_step(struct splicetuck_step got, struct ref_answer due,
                        struct shown shown)
{
    if (got.number != due.number || got.place != due.place
        || got.leaf != shown.leaf || got.outputs != shown.outputs)
        report("product {number %" PRIu32 ", place %" PRIu64 ", leaf %" PRIu16
               ", outputs %" PRIu64 "}, reference {number %" PRIu32
               ", place %" PRIu64 ", leaf %" PRIu16 ", outputs %" PRIu64 "}",
               got.number, got.place, got.leaf, got.outputs,
               due.number, due.place, shown.leaf, shown.outputs);
}

static void count_scan(const struct draft *d, size_t state_len,
                       const uint32_t *before, const uint32_t *after)
{
    size_t supers = state_len - d->t.presets_len;
    events[SCANS].times++;
    for (size_t i = 0; i < d->t.presets_len; i++)
        events[EXPIRED].times += before[supers + i] < d->presets[i]
            && after[supers + i] >= d->presets[i];
}

/* One scan from the state, which becomes the reference's state after it. */
static struct ref_answer compare_scan(const struct draft *d,
                                      const struct lent_tables *l,
                                      uint32_t *state, size_t state_len,
                                      uint64_t input, struct shown *shown)
{
    struct twin after = lend_twice(state, state_len * sizeof *state);
    uint32_t *due_state = after.reference;
    struct ref_answer due = ref_chart_step(&d->t, due_state, state_len, input,
                                           &shown->leaf, &shown->outputs);
    expect_step(splicetuck_step_chart(TABLES(&d->t, *l), after.product.at,
                                      state_len, input), due, *shown);
    expect_same("state", &after);
    show_u32("state", state, state_len);
    show_number("word_in", input);
    if (due.number == REF_ACCEPTED)
        count_scan(d, state_len, state, due_state);
    for (size_t i = 0; i < state_len; i++)
        state[i] = due_state[i];
    take_both_back(&after);
    return due;
}

static uint32_t compare(void)
{
    const struct draft *d = any_tables(6);
    struct lent_tables l = lend_tables(&d->t);
    uint32_t state[MOST_STATE];
    uint64_t inputs[MOST_SCANS];
    size_t state_len = any_state(d, state), scans = any_inputs(inputs);
    struct shown shown = {0, 0};
    struct ref_answer due = compare_scan(d, &l, state, state_len,
                                         scans > 0 ? inputs[0] : any64(),
                                         &shown);
    for (size_t i = 1; i < scans && i < MOST_STEPS; i++) {
        uint16_t leaf = shown.leaf;
        if (due.number != REF_ACCEPTED || differs())
            break;
        compare_scan(d, &l, state, state_len, inputs[i], &shown);
        events[CHANGES].times += shown.leaf != leaf;
        events[ON].times += shown.outputs != 0;
    }
    expect_tables_kept(&l);
    show_tables(&d->t);
    take_tables_back(&l);
    return due.number;
}

const struct call compare_step_chart = {
    .name = "step_chart",
    .gives = GIVES_TABLES | GIVES(REF_STATE),
    .compare = compare, .events = events
};
