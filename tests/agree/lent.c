/* Lent slices: what the product may write and what it must leave alone. */
#include "agree.h"

#include <stdlib.h>
#include <string.h>

enum { GUARD = 64 };

struct lent lend(const void *content, size_t size)
{
    struct lent l = {.size = size};
    l.all = must_alloc(size + 2 * GUARD);
    l.first = must_alloc(size + 2 * GUARD);
    any_bytes(l.all, GUARD);
    any_bytes(l.all + GUARD + size, GUARD);
    if (size > 0)
        memcpy(l.all + GUARD, content, size);
    memcpy(l.first, l.all, size + 2 * GUARD);
    /* "of a slice of length 0 it may be NULL" */
    l.at = size == 0 && once_in(2) ? NULL : l.all + GUARD;
    return l;
}

/* Index of the first byte that differs, or size. */
static size_t first_difference(const uint8_t *a, const uint8_t *b, size_t size)
{
    size_t i = 0;
    while (i < size && a[i] == b[i])
        i++;
    return i;
}

void expect_guards(const char *name, const struct lent *l)
{
    const uint8_t *past = l->all + GUARD + l->size;
    const uint8_t *past_first = l->first + GUARD + l->size;
    size_t i = first_difference(l->all, l->first, GUARD);
    if (i < GUARD)
        report("%s: byte %zu before the slice was changed", name, GUARD - i);
    i = first_difference(past, past_first, GUARD);
    if (i < GUARD)
        report("%s: byte %zu past the slice was changed", name, i);
}

static void expect_slice(const char *name, const struct lent *l,
                         const uint8_t *due)
{
    const uint8_t *slice = l->all + GUARD;
    size_t i = first_difference(slice, due, l->size);
    if (i < l->size)
        report("%s: byte %zu of %zu is 0x%02X, should be 0x%02X "
               "(was 0x%02X)", name, i, l->size, (unsigned)slice[i],
               (unsigned)due[i], (unsigned)l->first[GUARD + i]);
    expect_guards(name, l);
}

void expect_kept(const char *name, const struct lent *l)
{
    expect_slice(name, l, l->first + GUARD);
}

void take_back(struct lent *l)
{
    free(l->all);
    free(l->first);
}

struct twin lend_twice(const void *content, size_t size)
{
    struct twin w = {.reference = must_alloc(size)};
    if (content == NULL)
        any_bytes(w.reference, size);
    else
        memcpy(w.reference, content, size);
    w.product = lend(w.reference, size);
    return w;
}

void expect_same(const char *name, const struct twin *w)
{
    expect_slice(name, &w->product, w->reference);
}

void take_both_back(struct twin *w)
{
    take_back(&w->product);
    free(w->reference);
}

struct lent_tables lend_tables(const struct ref_tables *t)
{
    return (struct lent_tables){
        .states = lend(t->states, t->states_len * sizeof *t->states),
        .moves = lend(t->moves, t->moves_len * sizeof *t->moves),
        .presets = lend(t->presets, t->presets_len * sizeof *t->presets),
        .timer_pairs = lend(t->timer_pairs,
                            t->timer_pairs_len * sizeof *t->timer_pairs),
        .output_pairs = lend(t->output_pairs,
                             t->output_pairs_len * sizeof *t->output_pairs),
    };
}

void expect_tables_kept(const struct lent_tables *l)
{
    expect_kept("states", &l->states);
    expect_kept("moves", &l->moves);
    expect_kept("presets", &l->presets);
    expect_kept("timer_pairs", &l->timer_pairs);
    expect_kept("output_pairs", &l->output_pairs);
}

void take_tables_back(struct lent_tables *l)
{
    take_back(&l->states);
    take_back(&l->moves);
    take_back(&l->presets);
    take_back(&l->timer_pairs);
    take_back(&l->output_pairs);
}
