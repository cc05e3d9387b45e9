/* "Small charts worked by hand". */
#include "selftest.h"

#include <stdlib.h>
#include <string.h>

const char lamp_text[] =
    "PROGRAM CHART\nVAR\nT1 : TON;\nEND_VAR\n"
    "LD %MX0\nST T1.IN\nLD T#250ms\nST T1.PT\nCAL T1\n"
    "LDN %MX0\nAND %IX1\nS %MX1\n"
    "LD %MX0\nAND %IX2\nAND T1.Q\nR %MX1\n"
    "LD %MX1\nST %MX0\n"
    "LD %MX0\nST %QX1\nEND_PROGRAM\n";

struct draft *lamp(void)
{
    struct draft *d = draft_new(100, 2, 1);
    draft_state(d, 0, 1);
    draft_state(d, 0, 0);
    draft_state(d, 0, 0);
    draft_preset(d, 250);
    draft_timer_pair(d, 1, 2);
    draft_output_pair(d, 1, 2);
    DRAFT_MOVE(d, 1, 2, 0, 1);
    DRAFT_MOVE(d, 2, 1, 0, 2, 101);
    return d;
}

struct draft *chart_e(void)
{
    struct draft *d = draft_new(100, 2, 0);
    draft_state(d, 0, 1);
    draft_state(d, 0, 3);
    draft_state(d, 0, 0);
    draft_state(d, 1, 0);
    draft_state(d, 1, 0);
    DRAFT_MOVE(d, 3, 4, 0, 1, -2);
    DRAFT_MOVE(d, 1, 2, 0, 2);
    DRAFT_MOVE(d, 2, 1, 1, -2);
    return d;
}

static void test_lamp_text(void)
{
    struct draft *d = lamp();
    struct ref_tables t = exact(&d->t);
    size_t n;
    char *text = text_of_chart(&t, &n);
    EXPECT(n == sizeof lamp_text - 1 && strcmp(text, lamp_text) == 0);
    uint32_t *words = words_of_chart(&t, &n);
    const uint32_t first[] = {1u << 27, 7u * (1u << 27) + 1025,
                              11u * (1u << 27) + 250, 7u * (1u << 27) + 1281,
                              10u * (1u << 27) + 1537};
    EXPECT(n == 16 && memcmp(words, first, sizeof first) == 0);
    uint64_t bytes, blocks;
    EXPECT_ACCEPTED(ref_controller_size(words, n, &bytes, &blocks), 0);
    EXPECT(bytes == 2 && blocks == 1);
    EXPECT_ACCEPTED(ref_state_length(&t), 2);
    free(words);
    free(text);
    exact_free(&t);
    free(d);
}

/* (a): "Scans 1, 2, 2, 2, 2 give 1,2,1 / 2,2,1 / 3,2,1 / 4,2,1 / 5,1,0." */
static void test_lamp_run(void)
{
    static const uint64_t inputs[5] = {1, 2, 2, 2, 2};
    static const uint16_t leaves[5] = {2, 2, 2, 2, 1};
    static const uint64_t outputs[5] = {1, 1, 1, 1, 0};
    /* the state after each scan: code of the root, T1 */
    static const uint32_t states[5][2] = {
        {1, 0}, {1, 100}, {1, 200}, {1, 300}, {0, 0}};
    struct draft *d = lamp();
    uint32_t state[2] = {0, 0};
    uint16_t got[5], leaf;
    uint64_t on[5], output;
    EXPECT_ACCEPTED(ref_chart_run(&d->t, state, 2, inputs, 5, got, 5, on, 5), 5);
    EXPECT(memcmp(got, leaves, sizeof got) == 0);
    EXPECT(memcmp(on, outputs, sizeof on) == 0);
    EXPECT_ACCEPTED(ref_history(&d->t, inputs, 5, got, 5, on, 5), 5);
    EXPECT(memcmp(got, leaves, sizeof got) == 0);
    EXPECT(memcmp(on, outputs, sizeof on) == 0);
    state[0] = state[1] = 0;
    for (int i = 0; i < 5; i++) {
        EXPECT_ACCEPTED(ref_chart_step(&d->t, state, 2, inputs[i], &leaf,
                                       &output), 1);
        EXPECT(leaf == leaves[i] && output == outputs[i]);
        EXPECT(memcmp(state, states[i], sizeof state) == 0);
    }
    free(d);
}

static void test_lamp_program(void)
{
    static const uint64_t inputs[5] = {1, 2, 2, 2, 2};
    static const uint64_t outputs[5] = {1, 1, 1, 1, 0};
    /* after each scan: ET, Q and the IN of the last call */
    static const uint32_t block_after[5][3] = {
        {0, 0, 0}, {0, 0, 1}, {100, 0, 1}, {200, 0, 1}, {250, 1, 1}};
    struct draft *d = lamp();
    size_t n;
    uint32_t *words = words_of_chart(&d->t, &n);
    uint8_t flip_flops[2] = {0, 0};
    struct ref_block block = {0};
    uint64_t on[5], output;
    EXPECT_ACCEPTED(ref_program_run(words, n, 100, flip_flops, 2, &block, 1,
                                    inputs, 5, on, 5), 5);
    EXPECT(memcmp(on, outputs, sizeof on) == 0);
    block = (struct ref_block){0};
    for (int i = 0; i < 5; i++) {
        uint16_t leaf;
        EXPECT_ACCEPTED(ref_program_scan(words, n, 100, flip_flops, 2, &block,
                                         1, inputs[i], &output), 1);
        EXPECT(output == outputs[i] && block.pt == 250);
        EXPECT(block.et == block_after[i][0] && block.q == block_after[i][1]
               && block.last_in == block_after[i][2]
               && block.in == block_after[i][2]);
        EXPECT_ACCEPTED(ref_leaf(&d->t, flip_flops, 2, &leaf), 1);
        EXPECT(leaf == (outputs[i] ? 2 : 1));
        EXPECT(flip_flops[0] == flip_flops[1]);
    }
    free(words);
    free(d);
}

/* A root with n leaves, the k-th of them initial. */
static struct draft *fan(unsigned n, unsigned initial)
{
    struct draft *d = draft_new(100, 0, 0);
    draft_state(d, 0, initial);
    for (unsigned i = 0; i < n; i++)
        draft_state(d, 0, 0);
    return d;
}

/* (b) and (c) */
static void test_codes(void)
{
    static const unsigned subs[7] = {1, 2, 3, 4, 5, 8, 9};
    static const unsigned bits[7] = {0, 1, 2, 2, 3, 3, 4};
    for (int i = 0; i < 7; i++) {
        struct draft *d = fan(subs[i], 1);
        size_t n;
        uint64_t bytes, blocks;
        uint32_t *words = words_of_chart(&d->t, &n);
        EXPECT_ACCEPTED(ref_controller_size(words, n, &bytes, &blocks), 0);
        EXPECT(bytes == 2 * bits[i] && blocks == 0);
        free(words);
        free(d);
    }
    struct draft *d = fan(3, 2);
    static const uint8_t codes[3][2] = {{1, 0}, {0, 0}, {0, 1}};
    for (uint16_t s = 1; s <= 3; s++) {
        uint16_t leaf;
        EXPECT_ACCEPTED(ref_leaf(&d->t, codes[s - 1], 2, &leaf), 1);
        EXPECT(leaf == s);
    }
    free(d);
}

/* (d): N shows in the highest stored value, in when the timer expires, and in
 * how far it grows. */
static void test_n(void)
{
    static const uint32_t presets[4] = {200, 250, 300, 301};
    static const uint32_t n[4] = {2, 3, 3, 4};
    for (int i = 0; i < 4; i++) {
        struct draft *d = fan(2, 1);
        draft_preset(d, presets[i]);
        draft_timer_pair(d, 1, 1);
        DRAFT_MOVE(d, 1, 2, 0, 101);
        uint32_t state[2] = {0, n[i] * 100 + 100};
        uint64_t inputs[9] = {0}, outputs[9];
        uint16_t leaves[9], leaf;
        EXPECT_REFUSED(ref_chart_step(&d->t, state, 2, 0, leaves, outputs),
                       REF_STATE, 0);
        state[1] = n[i] * 100;
        EXPECT_ACCEPTED(ref_chart_step(&d->t, state, 2, 0, &leaf, outputs), 1);
        EXPECT(leaf == 2);
        state[0] = state[1] = 0;
        EXPECT_ACCEPTED(ref_chart_run(&d->t, state, 2, inputs, 9, leaves, 9,
                                      outputs, 9), 9);
        for (unsigned k = 0; k < 9; k++)
            EXPECT(leaves[k] == (k < n[i] ? 1 : 2));
        EXPECT_ACCEPTED(ref_history(&d->t, inputs, 9, leaves, 9, outputs, 9), 9);
        for (unsigned k = 0; k < 9; k++)
            EXPECT(leaves[k] == (k < n[i] ? 1 : 2));
        d->t.moves_len = 0; /* now it only grows */
        state[0] = state[1] = 0;
        EXPECT_ACCEPTED(ref_chart_run(&d->t, state, 2, inputs, 9, leaves, 9,
                                      outputs, 9), 9);
        EXPECT(state[1] == n[i] * 100);
        free(d);
    }
}

static void expect_leaves(struct draft *d, const uint64_t *inputs, size_t n,
                          const uint16_t *due)
{
    uint32_t state[2] = {0, 0};
    uint16_t leaves[8];
    uint64_t outputs[8];
    EXPECT_ACCEPTED(ref_chart_run(&d->t, state, 2, inputs, n, leaves, n,
                                  outputs, n), n);
    EXPECT(memcmp(leaves, due, n * sizeof *due) == 0);
    EXPECT_ACCEPTED(ref_history(&d->t, inputs, n, leaves, n, outputs, n), n);
    EXPECT(memcmp(leaves, due, n * sizeof *due) == 0);
}

/* (e) to (h) */
static void test_history_charts(void)
{
    struct draft *d = chart_e();
    expect_leaves(d, (const uint64_t[]){1, 2, 0}, 3,
                  (const uint16_t[]){4, 2, 4});
    expect_leaves(d, (const uint64_t[]){2, 0}, 2, (const uint16_t[]){2, 3});
    d->t.moves_len = 0;
    DRAFT_MOVE(d, 1, 2, 0, 2);
    DRAFT_MOVE(d, 3, 4, 0, 1);
    EXPECT_TABLES(&d->t, REF_OVERLAP, 1);
    d->t.moves_len = 0;
    DRAFT_MOVE(d, 1, 2, 0, 2);
    DRAFT_MOVE(d, 3, 4, 0, -32768);
    EXPECT_TABLES(&d->t, REF_LITERAL, 1);
    free(d);
}

/* "256 states, each super-state with three sub-states, need 170" */
static void test_170(void)
{
    struct draft *d = draft_new(1, 0, 0);
    for (unsigned s = 0; s < 256; s++)
        draft_state(d, s == 0 ? 0 : (s - 1) / 3, s < 85 ? 3 * s + 1 : 0);
    EXPECT_TABLES(&d->t, REF_FLIP_FLOPS, 0);
    free(d);
}

void test_examples(void)
{
    test_lamp_text();
    test_lamp_run();
    test_lamp_program();
    test_codes();
    test_n();
    test_history_charts();
    test_170();
}
