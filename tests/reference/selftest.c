/* The self-test of the reference: drafts, shared functions and main. */
#include "selftest.h"

#include <stdio.h>
#include <stdlib.h>
#include <string.h>

static unsigned long checks, failures;

void expect_at(bool good, const char *what, const char *file, int line)
{
    checks++;
    if (good)
        return;
    if (++failures <= 50)
        printf("%s:%d: %s\n", file, line, what);
}

bool same(struct ref_answer a, uint32_t number, uint64_t place,
          uint64_t length)
{
    if (a.number == number && a.place == place && a.length == length)
        return true;
    printf("  got %u at %llu, length %llu\n", (unsigned)a.number,
           (unsigned long long)a.place, (unsigned long long)a.length);
    return false;
}

static uint64_t seed = UINT64_C(88172645463325252);

uint64_t any64(void)
{
    seed ^= seed << 13;
    seed ^= seed >> 7;
    seed ^= seed << 17;
    return seed * UINT64_C(2685821657736338717);
}

uint32_t below(uint32_t n)
{
    return (uint32_t)((any64() >> 32) % n);
}

bool once_in(uint32_t n)
{
    return below(n) == 0;
}

void *must_alloc(size_t n)
{
    void *p = malloc(n == 0 ? 1 : n);
    if (p == NULL)
        abort();
    return p;
}

struct draft *draft_new(uint32_t step, uint32_t inputs, uint32_t outputs)
{
    struct draft *d = must_alloc(sizeof *d);
    memset(d, 0, sizeof *d);
    d->t = (struct ref_tables){
        .states = d->states, .moves = d->moves, .presets = d->presets,
        .timer_pairs = d->timer_pairs, .output_pairs = d->output_pairs,
        .step = step, .inputs = inputs, .outputs = outputs};
    return d;
}

void draft_state(struct draft *d, unsigned super, unsigned initial)
{
    d->states[d->t.states_len++] = (uint16_t)super;
    d->states[d->t.states_len++] = (uint16_t)initial;
}

void draft_move_row(struct draft *d, const int16_t row[11])
{
    memcpy(d->moves + d->t.moves_len, row, 11 * sizeof row[0]);
    d->t.moves_len += 11;
}

void draft_preset(struct draft *d, uint32_t preset)
{
    d->presets[d->t.presets_len++] = preset;
}

void draft_timer_pair(struct draft *d, unsigned timer, unsigned state)
{
    d->timer_pairs[d->t.timer_pairs_len++] = (uint16_t)timer;
    d->timer_pairs[d->t.timer_pairs_len++] = (uint16_t)state;
}

void draft_output_pair(struct draft *d, unsigned output, unsigned state)
{
    d->output_pairs[d->t.output_pairs_len++] = (uint16_t)output;
    d->output_pairs[d->t.output_pairs_len++] = (uint16_t)state;
}

static void *exact_copy(const void *from, size_t n)
{
    if (n == 0)
        return NULL;
    return memcpy(must_alloc(n), from, n);
}

struct ref_tables exact(const struct ref_tables *t)
{
    struct ref_tables e = *t;
    e.states = exact_copy(t->states, t->states_len * 2);
    e.moves = exact_copy(t->moves, t->moves_len * 2);
    e.presets = exact_copy(t->presets, t->presets_len * 4);
    e.timer_pairs = exact_copy(t->timer_pairs, t->timer_pairs_len * 2);
    e.output_pairs = exact_copy(t->output_pairs, t->output_pairs_len * 2);
    return e;
}

void exact_free(struct ref_tables *t)
{
    free((void *)t->states);
    free((void *)t->moves);
    free((void *)t->presets);
    free((void *)t->timer_pairs);
    free((void *)t->output_pairs);
}

void expect_tables_refused(const struct ref_tables *t, uint32_t number,
                           uint64_t place, const char *file, int line)
{
    struct ref_tables e = exact(t);
    uint32_t state[4] = {7, 7, 7, 7};
    uint16_t leaves[1] = {777};
    uint64_t outputs[1] = {7777}, inputs[1] = {1};
    uint8_t bytes[4] = {9, 9, 9, 9};
    struct ref_answer all[] = {
        ref_check(&e), ref_write_tables(&e, bytes, 4), ref_state_length(&e),
        ref_chart_run(&e, state, 4, inputs, 1, leaves, 1, outputs, 1),
        ref_chart_step(&e, state, 4, 1, leaves, outputs),
        /* lengths that would be STATE and SCANS: those come later */
        ref_chart_run(&e, state, 3, inputs, 1, leaves, 0, outputs, 0),
        ref_history(&e, inputs, 1, leaves, 1, outputs, 1),
        ref_history(&e, inputs, 1, leaves, 0, outputs, 1),
        ref_leaf(&e, bytes, 4, leaves),
    };
    for (size_t i = 0; i < sizeof all / sizeof all[0]; i++)
        expect_at(same(all[i], number, place, 0), "tables refused", file, line);
    struct ref_witness w = ref_check_witness(&e);
    expect_at(w.number == number && w.place == place, "the witness's refusal",
              file, line);
    if (number != REF_OVERLAP)
        expect_witness(&e, (struct ref_witness){.number = number,
                                                .place = place}, file, line);
    bool kept = leaves[0] == 777 && outputs[0] == 7777;
    for (int i = 0; i < 4; i++)
        kept = kept && state[i] == 7 && bytes[i] == 9;
    expect_at(kept, "a refusal writes nothing", file, line);
    exact_free(&e);
}

char *text_of_chart(const struct ref_tables *t, size_t *n)
{
    struct ref_answer a = ref_write_tables(t, NULL, 0);
    EXPECT(a.number == REF_ROOM);
    *n = (size_t)a.place;
    uint8_t *text = must_alloc(*n + 1);
    text[*n] = 0;
    EXPECT_REFUSED(ref_write_tables(t, text, *n - 1), REF_ROOM, *n);
    EXPECT_ACCEPTED(ref_write_tables(t, text, *n), *n);
    EXPECT(text[*n] == 0);
    return (char *)text;
}

uint32_t *words_of_chart(const struct ref_tables *t, size_t *n)
{
    size_t bytes;
    char *text = text_of_chart(t, &bytes);
    struct ref_answer a = ref_read_text((uint8_t *)text, bytes, NULL, 0);
    *n = (size_t)a.place; /* 0 as well for a text without instructions */
    EXPECT(a.number == (*n == 0 ? REF_ACCEPTED : REF_ROOM));
    uint32_t *words = must_alloc(*n * sizeof *words);
    EXPECT_ACCEPTED(ref_read_text((uint8_t *)text, bytes, words, *n), *n);
    free(text);
    return words;
}

int main(void)
{
    test_examples();
    test_refusals();
    test_readings();
    test_text();
    test_records();
    test_random();
    test_witness();
    test_needs();
    printf("%lu checks, %lu failures\n", checks, failures);
    return failures == 0 ? EXIT_SUCCESS : EXIT_FAILURE;
}
