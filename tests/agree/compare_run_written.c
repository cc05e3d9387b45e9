/* splicetuck_run_written against the reference: the bytes that the product
 * wrote, read back and ran, against the reading of demand 3. */
#include "agree.h"

enum { SCANS, CHANGES, ON };
static struct event events[] = {
    [SCANS] = {"scans", 0},
    [CHANGES] = {"scans that changed the leaf", 0},
    [ON] = {"output words other than 0", 0},
    {NULL, 0}
};

/* The slices of one case besides the tables. */
struct run {
    size_t text_len, words_len, scans, leaves_len, words_out_len;
    uint64_t inputs[MOST_SCANS];
    struct twin text, words, leaves, words_out;
    struct lent words_in;
};

static void make_run(uint64_t needed, struct run *r)
{
    r->text_len = any_room(needed);
    r->words_len = any_room(needed);
    r->scans = any_inputs(r->inputs);
    r->leaves_len = any_result_length(r->scans);
    r->words_out_len = any_result_length(r->scans);
    r->text = lend_twice(NULL, r->text_len);
    r->words = lend_twice(NULL, r->words_len * sizeof(uint32_t));
    r->words_in = lend(r->inputs, r->scans * sizeof r->inputs[0]);
    r->leaves = lend_twice(NULL, r->leaves_len * sizeof(uint16_t));
    r->words_out = lend_twice(NULL, r->words_out_len * sizeof(uint64_t));
}

/* `due` is the answer over no byte: 1 to 11, or ROOM with the text's length. */
static struct ref_answer run_reference(
    const struct ref_tables *t, struct ref_answer due, const struct run *r)
{
    if (due.number != REF_ROOM)
        return due;
    if (r->leaves_len != r->scans || r->words_out_len != r->scans)
        return (struct ref_answer){REF_SCANS, 0, 0};
    if (r->text_len < due.place || r->words_len < due.place)
        return due;
    due = ref_write_tables(t, r->text.reference, r->text_len);
    ref_read_text(r->text.reference, due.length, r->words.reference,
                  r->words_len);
    ref_history(t, r->inputs, r->scans, r->leaves.reference, r->leaves_len,
                r->words_out.reference, r->words_out_len);
    return due;
}

static void expect_run(const struct run *r)
{
    expect_same("text", &r->text);
    expect_same("words", &r->words);
    expect_same("leaves", &r->leaves);
    expect_same("words_out", &r->words_out);
    expect_kept("words_in", &r->words_in);
}

static void show_run(const struct run *r)
{
    show_u64("words_in", r->inputs, r->scans);
    show_number("scans", r->scans);
    show_number("text_len", r->text_len);
    show_number("words_len", r->words_len);
    show_number("leaves_len", r->leaves_len);
    show_number("words_out_len", r->words_out_len);
}

static void end_run(struct run *r)
{
    take_both_back(&r->text);
    take_both_back(&r->words);
    take_both_back(&r->leaves);
    take_both_back(&r->words_out);
    take_back(&r->words_in);
}

static void count_events(const struct run *r)
{
    const uint16_t *leaves = r->leaves.reference;
    const uint64_t *words_out = r->words_out.reference;
    events[SCANS].times += r->scans;
    for (size_t i = 0; i < r->scans; i++) {
        events[CHANGES].times += i > 0 && leaves[i] != leaves[i - 1];
        events[ON].times += words_out[i] != 0;
    }
}

static uint32_t compare(void)
{
    const struct draft *d = any_tables(6);
    struct lent_tables l = lend_tables(&d->t);
    struct ref_answer none = ref_write_tables(&d->t, NULL, 0);
    struct run r;
    make_run(none.number == REF_ROOM ? none.place : 0, &r);
    struct ref_answer due = run_reference(&d->t, none, &r);
    expect_answer(splicetuck_run_written(
        TABLES(&d->t, l), r.text.product.at, r.text_len, r.words.product.at,
        r.words_len, r.words_in.at, r.scans, r.leaves.product.at, r.leaves_len,
        r.words_out.product.at, r.words_out_len), due);
    expect_run(&r);
    expect_tables_kept(&l);
    show_tables(&d->t);
    show_run(&r);
    if (due.number == REF_ACCEPTED)
        count_events(&r);
    end_run(&r);
    take_tables_back(&l);
    return due.number;
}

const struct call compare_run_written = {
    .name = "run_written",
    .gives = GIVES_TABLES | GIVES(REF_ROOM) | GIVES(REF_SCANS),
    .compare = compare, .events = events
};
