/* splicetuck_check against the reference. */
#include "agree.h"

/* Both sides of every limit: the random tables must also have met the last
 * value that is accepted. */
static struct event events[] = {
    {"256 states", 0}, {"depth 8", 0}, {"512 moves", 0}, {"64 inputs", 0},
    {"64 outputs", 0}, {"32 timers", 0}, {"128 flip-flops", 0},
    {"2,048 timer pairs", 0}, {"2,048 output pairs", 0}, {"scan step 1", 0},
    {"scan step 1,000", 0}, {"preset 1", 0}, {"preset 86,400,000", 0},
    {"mark 1", 0}, {"eight literals", 0}, {NULL, 0}
};

static bool has_depth(const struct draft *d, unsigned depth)
{
    for (unsigned s = 0; s < d->t.states_len / 2; s++)
        if (depth_of(d, s) == depth)
            return true;
    return false;
}

static bool has_preset(const struct draft *d, uint32_t preset)
{
    for (size_t i = 0; i < d->t.presets_len; i++)
        if (d->presets[i] == preset)
            return true;
    return false;
}

/* Is column `column` of some move other than 0? */
static bool has_in_moves(const struct draft *d, size_t column)
{
    for (size_t m = 0; m < d->t.moves_len; m += 11)
        if (d->moves[m + column] != 0)
            return true;
    return false;
}

static void count_events(const struct draft *d)
{
    const bool met[] = {
        d->t.states_len == 2 * 256, has_depth(d, 8),
        d->t.moves_len == 11 * 512, d->t.inputs == 64, d->t.outputs == 64,
        d->t.presets_len == 32, flip_flops_of(d) == 128,
        d->t.timer_pairs_len == 2 * 2048, d->t.output_pairs_len == 2 * 2048,
        d->t.step == 1, d->t.step == 1000, has_preset(d, 1),
        has_preset(d, 86400000), has_in_moves(d, 2), has_in_moves(d, 10)
    };
    for (size_t i = 0; i < sizeof met / sizeof met[0]; i++)
        events[i].times += met[i];
}

static uint32_t compare(void)
{
    const struct draft *d = any_tables(2);
    struct lent_tables l = lend_tables(&d->t);
    struct ref_answer due = ref_check(&d->t);
    expect_answer(splicetuck_check(TABLES(&d->t, l)), due);
    expect_tables_kept(&l);
    show_tables(&d->t);
    take_tables_back(&l);
    if (due.number == REF_ACCEPTED)
        count_events(d);
    return due.number;
}

const struct call compare_check = {
    .name = "check", .gives = GIVES_TABLES, .compare = compare,
    .events = events
};
