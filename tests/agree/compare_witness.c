/* splicetuck_check_witness against the reference, half of it on tables that
 * overlap more often than not. */
#include "agree.h"

#include <inttypes.h>

enum { MOVE_ROW = 11, HEAD = 3 };

/* What a wrong comparison of two moves, or a wrong choice among the moves, could
 * be mistaken in. */
enum {
    NOT_FIRST, SEVERAL, EQUAL_SOURCES, EARLIER_ABOVE, LATER_ABOVE, INPUTS_ON,
    INPUTS_OFF, TIMERS_ON, TIMERS_OFF, NOTHING, INPUT_64, TIMER_32, MANY,
    ON_MEETS_OFF, OFF_MEETS_ON
};
static struct event events[] = {
    [NOT_FIRST] = {"an earlier move other than the first", 0},
    [SEVERAL] = {"several earlier moves to choose from", 0},
    [EQUAL_SOURCES] = {"equal sources", 0},
    [EARLIER_ABOVE] = {"the earlier source above the later", 0},
    [LATER_ABOVE] = {"the later source above the earlier", 0},
    [INPUTS_ON] = {"inputs needed on", 0},
    [INPUTS_OFF] = {"inputs needed off", 0},
    [TIMERS_ON] = {"timers needed on", 0},
    [TIMERS_OFF] = {"timers needed off", 0},
    [NOTHING] = {"nothing needed", 0},
    [INPUT_64] = {"input 64 needed", 0},
    [TIMER_32] = {"timer 32 needed", 0},
    [MANY] = {"more than eight things needed", 0},
    [ON_MEETS_OFF] = {"only the earlier's on meets the later's off", 0},
    [OFF_MEETS_ON] = {"only the earlier's off meets the later's on", 0},
    {NULL, 0}
};

static bool at_or_above(const struct draft *d, int above, int s)
{
    while (s != above && s != 0)
        s = d->states[2 * s];
    return s == above;
}

static bool on_one_path(const struct draft *d, const int16_t *a,
                        const int16_t *b)
{
    return at_or_above(d, a[0], b[0]) || at_or_above(d, b[0], a[0]);
}

/* Does a want on what b wants off? */
static bool clash(const int16_t *a, const int16_t *b)
{
    for (int i = HEAD; i < MOVE_ROW; i++)
        for (int k = HEAD; a[i] > 0 && k < MOVE_ROW; k++)
            if (b[k] == -a[i])
                return true;
    return false;
}

/* Moves that one question alone keeps apart; of the first ones, to be quick. */
static void count_clashes(const struct draft *d)
{
    size_t n = d->t.moves_len / MOVE_ROW;
    bool on_off = false, off_on = false;
    for (size_t m = 0; m < n && m < 20; m++)
        for (size_t e = 0; e < m; e++) {
            const int16_t *a = d->moves + e * MOVE_ROW;
            const int16_t *b = d->moves + m * MOVE_ROW;
            if (!on_one_path(d, a, b))
                continue;
            on_off = on_off || (clash(a, b) && !clash(b, a));
            off_on = off_on || (clash(b, a) && !clash(a, b));
        }
    events[ON_MEETS_OFF].times += on_off;
    events[OFF_MEETS_ON].times += off_on;
}

static bool others(const struct draft *d, const struct ref_witness *w)
{
    const int16_t *b = d->moves + w->place * MOVE_ROW;
    for (uint64_t e = w->earlier + 1; e < w->place; e++) {
        const int16_t *a = d->moves + e * MOVE_ROW;
        if (on_one_path(d, a, b) && !clash(a, b) && !clash(b, a))
            return true;
    }
    return false;
}

static unsigned count_bits(uint64_t word)
{
    unsigned n = 0;
    for (; word != 0; word &= word - 1)
        n++;
    return n;
}

static void count_overlap(const struct draft *d, const struct ref_witness *w)
{
    int a = d->moves[w->earlier * MOVE_ROW], b = d->moves[w->place * MOVE_ROW];
    unsigned needed = count_bits(w->inputs_on) + count_bits(w->inputs_off)
        + count_bits(w->timers_on) + count_bits(w->timers_off);
    const bool met[] = {
        [NOT_FIRST] = w->earlier > 0, [SEVERAL] = others(d, w),
        [EQUAL_SOURCES] = a == b,
        [EARLIER_ABOVE] = a != b && at_or_above(d, a, b),
        [LATER_ABOVE] = a != b && at_or_above(d, b, a),
        [INPUTS_ON] = w->inputs_on != 0, [INPUTS_OFF] = w->inputs_off != 0,
        [TIMERS_ON] = w->timers_on != 0, [TIMERS_OFF] = w->timers_off != 0,
        [NOTHING] = needed == 0, [MANY] = needed > 8,
        [INPUT_64] = (w->inputs_on | w->inputs_off) >> 63 & 1,
        [TIMER_32] = (w->timers_on | w->timers_off) >> 31 & 1
    };
    for (size_t i = 0; i < sizeof met / sizeof met[0]; i++)
        events[i].times += met[i];
}

#define WITNESS_FORMAT \
    "{number %" PRIu32 ", place %" PRIu64 ", earlier %" PRIu64 ", state %" \
    PRIu64 ", inputs 0x%" PRIx64 " on 0x%" PRIx64 " off, timers 0x%" PRIx64 \
    " on 0x%" PRIx64 " off}"
#define WITNESS(w) \
    (w).number, (w).place, (w).earlier, (w).state, (w).inputs_on, \
    (w).inputs_off, (w).timers_on, (w).timers_off

static void expect_witness(struct splicetuck_witness got,
                           struct ref_witness due)
{
    if (got.number != due.number || got.place != due.place
        || got.earlier != due.earlier || got.state != due.state
        || got.inputs_on != due.inputs_on || got.inputs_off != due.inputs_off
        || got.timers_on != due.timers_on || got.timers_off != due.timers_off)
        report("product " WITNESS_FORMAT ", reference " WITNESS_FORMAT,
               WITNESS(got), WITNESS(due));
}

/* The reference finds an overlap in two ways, which must come to one answer. */
static void expect_one_answer(struct ref_answer check, struct ref_witness due)
{
    if (check.number != due.number || check.place != due.place)
        report("the reference's check {number %" PRIu32 ", place %" PRIu64
               "}, its witness {number %" PRIu32 ", place %" PRIu64 "}",
               check.number, check.place, due.number, due.place);
}

static uint32_t compare(void)
{
    const struct draft *d = once_in(2) ? any_overlaps() : any_tables(2);
    struct lent_tables l = lend_tables(&d->t);
    struct ref_witness due = ref_check_witness(&d->t);
    expect_one_answer(ref_check(&d->t), due);
    expect_witness(splicetuck_check_witness(TABLES(&d->t, l)), due);
    expect_tables_kept(&l);
    show_tables(&d->t);
    take_tables_back(&l);
    if (due.number == REF_OVERLAP)
        count_overlap(d, &due);
    if (due.number == REF_ACCEPTED)
        count_clashes(d);
    return due.number;
}

const struct call compare_witness = {
    .name = "check_witness", .gives = GIVES_TABLES, .compare = compare,
    .events = events
};
