/* splicetuck_write_words against the reference. */
#include "agree.h"

#include <stdlib.h>

static uint64_t bytes_needed(const struct list *l)
{
    struct ref_answer a = ref_write_words(l->words, l->len, NULL, 0);
    return a.number == REF_ROOM ? a.place : below(200);
}

static uint32_t compare(void)
{
    struct list list = any_words(2);
    size_t text_len = any_room(bytes_needed(&list));
    struct lent words = lend(list.words, list.len * sizeof *list.words);
    struct twin text = lend_twice(NULL, text_len);
    struct ref_answer due = ref_write_words(list.words, list.len,
                                            text.reference, text_len);
    expect_answer(splicetuck_write_words(words.at, list.len, text.product.at,
                                         text_len), due);
    expect_same("text", &text);
    expect_kept("words", &words);
    show_u32("words", list.words, list.len);
    show_number("text_len", text_len);
    take_both_back(&text);
    take_back(&words);
    free(list.words);
    return due.number;
}

const struct call compare_write_words = {
    .name = "write_words",
    .gives = GIVES(REF_ACCEPTED) | GIVES(REF_ROOM) | GIVES(REF_TEXT),
    .compare = compare
};
