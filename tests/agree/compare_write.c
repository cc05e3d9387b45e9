/* splicetuck_write against the reference. */
#include "agree.h"

/* The bytes that the reference asks for when it has none. */
static uint64_t bytes_needed(const struct draft *d)
{
    struct ref_answer a = ref_write_tables(&d->t, NULL, 0);
    return a.number == REF_ROOM ? a.place : below(200);
}

static uint32_t compare(void)
{
    const struct draft *d = any_tables(3);
    size_t text_len = any_room(bytes_needed(d));
    struct lent_tables l = lend_tables(&d->t);
    struct twin text = lend_twice(NULL, text_len);
    struct ref_answer due = ref_write_tables(&d->t, text.reference, text_len);
    expect_answer(splicetuck_write(TABLES(&d->t, l), text.product.at, text_len),
                  due);
    expect_same("text", &text);
    expect_tables_kept(&l);
    show_tables(&d->t);
    show_number("text_len", text_len);
    take_both_back(&text);
    take_tables_back(&l);
    return due.number;
}

const struct call compare_write = {
    .name = "write", .gives = GIVES_TABLES | GIVES(REF_ROOM), .compare = compare
};
