/* splicetuck_state_length against the reference. */
#include "agree.h"

static uint32_t compare(void)
{
    const struct draft *d = any_tables(3);
    struct lent_tables l = lend_tables(&d->t);
    struct ref_answer due = ref_state_length(&d->t);
    expect_answer(splicetuck_state_length(TABLES(&d->t, l)), due);
    expect_tables_kept(&l);
    show_tables(&d->t);
    take_tables_back(&l);
    return due.number;
}

const struct call compare_state_length = {
    .name = "state_length", .gives = GIVES_TABLES, .compare = compare
};
