/* splicetuck_read against the reference. */
#include "agree.h"

#include <stdlib.h>

static uint64_t words_needed(const struct text *x)
{
    struct ref_answer a = ref_read_text(x->bytes, x->len, NULL, 0);
    return a.number == REF_ROOM ? a.place : below(40);
}

static uint32_t compare(void)
{
    struct text x = any_text(2);
    size_t words_len = any_room(words_needed(&x));
    struct lent text = lend(x.bytes, x.len);
    struct twin words = lend_twice(NULL, words_len * sizeof(uint32_t));
    struct ref_answer due = ref_read_text(x.bytes, x.len, words.reference,
                                          words_len);
    expect_answer(splicetuck_read(text.at, x.len, words.product.at, words_len),
                  due);
    expect_same("words", &words);
    expect_kept("text", &text);
    show_text("text", x.bytes, x.len);
    show_number("words_len", words_len);
    take_both_back(&words);
    take_back(&text);
    free(x.bytes);
    return due.number;
}

const struct call compare_read = {
    .name = "read",
    .gives = GIVES(REF_ACCEPTED) | GIVES(REF_ROOM) | GIVES(REF_TEXT),
    .compare = compare
};
