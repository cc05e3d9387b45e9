/* splicetuck_run_program against the reference. */
#include "program.h"

static struct event events[] = {PROGRAM_EVENT_NAMES};

/* The slices of one case. */
struct run {
    struct program program;
    size_t scans, words_out_len;
    uint64_t inputs[MOST_SCANS];
    struct lent words_in;
    struct twin words_out;
};

static void make_run(struct run *r)
{
    make_program(&r->program);
    r->scans = any_inputs(r->inputs);
    r->words_out_len = any_result_length(r->scans);
    r->words_in = lend(r->inputs, r->scans * sizeof r->inputs[0]);
    r->words_out = lend_twice(NULL, r->words_out_len * sizeof(uint64_t));
}

static void show_run(const struct run *r)
{
    show_program(&r->program);
    show_u64("words_in", r->inputs, r->scans);
    show_number("scans", r->scans);
    show_number("words_out_len", r->words_out_len);
}

static void end_run(struct run *r)
{
    end_program(&r->program);
    take_back(&r->words_in);
    take_both_back(&r->words_out);
}

static void count_events(const struct run *r)
{
    const uint64_t *words_out = r->words_out.reference;
    count_program(&r->program, events);
    for (size_t i = 0; i < r->scans; i++)
        events[ON].times += words_out[i] != 0;
}

static uint32_t compare(void)
{
    struct run r;
    struct program *p = &r.program;
    make_run(&r);
    struct ref_answer due = ref_program_run(
        p->list.words, p->list.len, p->step, p->flip_flops.reference,
        p->first.flip_flops_len, p->after, p->first.blocks_len, r.inputs,
        r.scans, r.words_out.reference, r.words_out_len);
    expect_answer(splicetuck_run_program(
        p->step, p->words.at, p->list.len, p->flip_flops.product.at,
        p->first.flip_flops_len, p->blocks.at, p->first.blocks_len,
        r.words_in.at, r.scans, r.words_out.product.at, r.words_out_len), due);
    expect_program(p, due.number);
    expect_same("words_out", &r.words_out);
    expect_kept("words_in", &r.words_in);
    show_run(&r);
    if (due.number == REF_ACCEPTED)
        count_events(&r);
    end_run(&r);
    return due.number;
}

const struct call compare_run_program = {
    .name = "run_program",
    .gives = GIVES(REF_ACCEPTED) | GIVES(REF_SIZE) | GIVES(REF_TEXT)
        | GIVES(REF_STATE) | GIVES(REF_SCANS),
    .compare = compare, .events = events
};
