/* splicetuck_sizes_of against the reference. */
#include "agree.h"

#include <inttypes.h>
#include <stdlib.h>

static void expect_sizes(struct splicetuck_sizes got, struct ref_answer due,
                         uint64_t flip_flops, uint64_t blocks)
{
    if (got.number != due.number || got.place != due.place
        || got.flip_flops != flip_flops || got.blocks != blocks)
        report("product {number %" PRIu32 ", place %" PRIu64 ", flip_flops %"
               PRIu64 ", blocks %" PRIu64 "}, reference {number %" PRIu32
               ", place %" PRIu64 ", flip_flops %" PRIu64 ", blocks %" PRIu64
               "}", got.number, got.place, got.flip_flops, got.blocks,
               due.number, due.place, flip_flops, blocks);
}

static uint32_t compare(void)
{
    struct list list = any_words(2);
    struct lent words = lend(list.words, list.len * sizeof *list.words);
    uint64_t flip_flops = 0, blocks = 0; /* "0 when refused" */
    struct ref_answer due = ref_controller_size(list.words, list.len,
                                                &flip_flops, &blocks);
    expect_sizes(splicetuck_sizes_of(words.at, list.len), due, flip_flops,
                 blocks);
    expect_kept("words", &words);
    show_u32("words", list.words, list.len);
    take_back(&words);
    free(list.words);
    return due.number;
}

const struct call compare_sizes_of = {
    .name = "sizes_of", .gives = GIVES(REF_ACCEPTED) | GIVES(REF_TEXT),
    .compare = compare
};
