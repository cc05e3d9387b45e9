/* splicetuck_scan_program against the reference. */
#include "program.h"

static struct event events[] = {PROGRAM_EVENT_NAMES};

static uint64_t any_input(void)
{
    uint64_t inputs[MOST_SCANS];
    return any_inputs(inputs) > 0 ? inputs[0] : 0;
}

static void expect_scan(struct splicetuck_scan got, struct ref_answer due,
                        uint64_t output)
{
    if (got.number != due.number || got.place != due.place)
        report("the answer is %lu at %zu, should be %lu at %zu",
               (unsigned long)got.number, got.place,
               (unsigned long)due.number, due.place);
    if (got.outputs != output)
        report("the output word is %llu, should be %llu",
               (unsigned long long)got.outputs, (unsigned long long)output);
}

static uint32_t compare(void)
{
    struct program p;
    make_program(&p);
    uint64_t input = any_input(), output = 0;
    struct ref_answer due = ref_program_run(
        p.list.words, p.list.len, p.step, p.flip_flops.reference,
        p.first.flip_flops_len, p.after, p.first.blocks_len, &input, 1,
        &output, 1);
    expect_scan(splicetuck_scan_program(
        p.step, p.words.at, p.list.len, p.flip_flops.product.at,
        p.first.flip_flops_len, p.blocks.at, p.first.blocks_len, input), due,
        output);
    expect_program(&p, due.number);
    show_program(&p);
    show_u64("word_in", &input, 1);
    if (due.number == REF_ACCEPTED) {
        count_program(&p, events);
        events[ON].times += output != 0;
    }
    end_program(&p);
    return due.number;
}

const struct call compare_scan_program = {
    .name = "scan_program",
    .gives = GIVES(REF_ACCEPTED) | GIVES(REF_SIZE) | GIVES(REF_TEXT)
        | GIVES(REF_STATE),
    .compare = compare, .events = events
};
