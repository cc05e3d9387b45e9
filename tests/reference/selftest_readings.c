/* The settled readings of 01, one by one, as far as the other parts of the
 * self-test do not show them. The numbers are those of docs/DECISIONS.md. */
#include "selftest.h"

#include <stdlib.h>
#include <string.h>

/* Is the written text just these lines? */
static void expect_text(struct draft *d, const char *due, const char *file,
                        int line)
{
    size_t n;
    char *text = text_of_chart(&d->t, &n);
    expect_at(strcmp(text, due) == 0, text, file, line);
    free(text);
}
#define EXPECT_TEXT(d, due) expect_text((d), (due), __FILE__, __LINE__)

/* Do chart and history give these leaves from the start? */
static void expect_run(struct draft *d, const uint64_t *inputs,
                       const uint16_t *due, size_t n, const char *file,
                       int line)
{
    uint32_t state[64] = {0};
    uint16_t leaves[32];
    uint64_t outputs[32];
    size_t len = (size_t)ref_state_length(&d->t).length;
    expect_at(same(ref_chart_run(&d->t, state, len, inputs, n, leaves, n,
                                 outputs, n), 0, 0, n), "run", file, line);
    expect_at(memcmp(leaves, due, n * sizeof *due) == 0, "leaves", file, line);
    expect_at(same(ref_history(&d->t, inputs, n, leaves, n, outputs, n), 0, 0,
                   n), "history", file, line);
    expect_at(memcmp(leaves, due, n * sizeof *due) == 0, "leaves by history",
              file, line);
}
#define EXPECT_RUN(d, inputs, leaves) \
    expect_run((d), (inputs), (leaves), sizeof(leaves) / sizeof(leaves)[0], \
               __FILE__, __LINE__)

/* Reading 4, 6 and 22: the root alone. */
static void test_root_alone(void)
{
    struct draft *d = draft_new(1, 1, 1);
    draft_state(d, 0, 0);
    EXPECT_ACCEPTED(ref_state_length(&d->t), 0);
    EXPECT_TEXT(d, "PROGRAM CHART\nLD FALSE\nST %QX1\nEND_PROGRAM\n");
    DRAFT_MOVE(d, 0, 0, 0);
    EXPECT_ACCEPTED(ref_check(&d->t), 0);
    draft_output_pair(d, 1, 0);
    EXPECT_TEXT(d, "PROGRAM CHART\nLD TRUE\nST %QX1\nEND_PROGRAM\n");
    static const uint64_t inputs[2] = {1, 0};
    static const uint16_t leaves[2] = {0, 0};
    EXPECT_RUN(d, inputs, leaves);
    d->moves[2] = 1;
    EXPECT_TABLES(&d->t, REF_MOVE, 0);
    d->moves[2] = 0;
    d->t.outputs = 0;
    d->t.output_pairs_len = 0;
    EXPECT_TEXT(d, "PROGRAM CHART\nEND_PROGRAM\n");
    EXPECT_REFUSED(ref_chart_run(&d->t, NULL, 1, NULL, 0, NULL, 0, NULL, 0),
                   REF_STATE, 0);
    d->states[1] = 1;
    EXPECT_TABLES(&d->t, REF_INITIAL, 0);
    free(d);
}

/* 9: timers are free, even two that always agree. */
static void test_free_timers(void)
{
    struct draft *d = draft_new(100, 0, 0);
    draft_state(d, 0, 1);
    draft_state(d, 0, 0);
    draft_preset(d, 300);
    draft_preset(d, 300);
    draft_timer_pair(d, 1, 1);
    draft_timer_pair(d, 2, 1);
    DRAFT_MOVE(d, 1, 1, 0, 101);
    DRAFT_MOVE(d, 1, 1, 0, -102);
    EXPECT_TABLES(&d->t, REF_OVERLAP, 1);
    d->moves[11 + 3] = -101;
    EXPECT_ACCEPTED(ref_check(&d->t), 0);
    free(d);
}

static struct draft *narrow(void)
{
    struct draft *d = draft_new(1, 2, 3);
    draft_state(d, 0, 1); /* 0: one sub-state */
    draft_state(d, 0, 2); /* 1: two */
    draft_state(d, 1, 0);
    draft_state(d, 1, 4); /* 3: one */
    draft_state(d, 3, 0);
    return d;
}

/* 10, 17 and 18: a group of one sub-state has no line. */
static void test_narrow_groups(void)
{
    struct draft *d = narrow();
    draft_preset(d, 86400000);
    draft_output_pair(d, 1, 1);
    draft_output_pair(d, 1, 3);
    draft_output_pair(d, 1, 4);
    draft_output_pair(d, 3, 2);
    draft_output_pair(d, 3, 0);
    EXPECT_TABLES(&d->t, REF_OUTPUT_PAIR, 4);
    d->output_pairs[7] = 0;
    d->output_pairs[9] = 2;
    DRAFT_MOVE(d, 1, 3, 0, -1, 2);
    DRAFT_MOVE(d, 1, 1, 1, 1, 2);   /* history: sets the root's group only */
    DRAFT_MOVE(d, 4, 4, 0, 1, -2);  /* stays, though it changes nothing */
    DRAFT_MOVE(d, 0, 0, 0, -1, -2);
    EXPECT_ACCEPTED(ref_state_length(&d->t), 4);
    EXPECT_TEXT(d,
        "PROGRAM CHART\nVAR\nT1 : TON;\nEND_VAR\n"
        "LD FALSE\nST T1.IN\nLD T#86400000ms\nST T1.PT\nCAL T1\n"
        "LDN %IX1\nAND %IX2\nS %MX1\n"
        "LD %MX0\nAND %IX1\nANDN %IX2\nS %MX1\n"
        "LDN %IX1\nANDN %IX2\nR %MX1\n"
        "LD %MX1\nST %MX0\n"
        "LD TRUE\nOR(\nLD %MX0\n)\nOR(\nLD %MX0\n)\nST %QX1\n"
        "LD FALSE\nST %QX2\n"
        "LD TRUE\nOR(\nLDN %MX0\n)\nST %QX3\nEND_PROGRAM\n");
    d->t.moves_len = 0;
    DRAFT_MOVE(d, 0, 3, 0);
    d->t.outputs = 0;
    d->t.output_pairs_len = 0;
    d->t.presets_len = 0;
    EXPECT_TEXT(d, "PROGRAM CHART\nLD TRUE\nS %MX1\nLD %MX1\nST %MX0\n"
                   "END_PROGRAM\n");
    free(d);
}

/* Codes of two bits, groups from the root down, low bit first; an OR whose
 * later state has no bits. */
static void test_wide_groups(void)
{
    struct draft *d = draft_new(5, 1, 1);
    draft_state(d, 0, 3); /* 0: subs 1, 2, 3, initial 3: codes 1, 2, 0 */
    draft_state(d, 0, 5); /* 1: subs 4, 5, initial 5: codes 1, 0 */
    draft_state(d, 0, 0);
    draft_state(d, 0, 6); /* 3: subs 6 */
    draft_state(d, 1, 0);
    draft_state(d, 1, 0);
    draft_state(d, 3, 0);
    draft_preset(d, 7);
    draft_timer_pair(d, 1, 0);
    draft_timer_pair(d, 1, 4);
    draft_output_pair(d, 1, 2);
    draft_output_pair(d, 1, 5);
    DRAFT_MOVE(d, 6, 1, 0, 1, -101);
    DRAFT_MOVE(d, 1, 1, 1, 1);
    DRAFT_MOVE(d, 0, 4, 0, -1);
    EXPECT_TEXT(d,
        "PROGRAM CHART\nVAR\nT1 : TON;\nEND_VAR\n"
        "LD TRUE\nOR(\nLD %MX0\nANDN %MX1\nAND %MX2\n)\n"
        "ST T1.IN\nLD T#7ms\nST T1.PT\nCAL T1\n"
        "LDN %MX0\nANDN %MX1\nAND %IX1\nANDN T1.Q\nS %MX3\nR %MX4\nR %MX5\n"
        "LD %MX0\nANDN %MX1\nAND %IX1\nS %MX3\nR %MX4\n"
        "LDN %IX1\nS %MX3\nR %MX4\nS %MX5\n"
        "LD %MX3\nST %MX0\nLD %MX4\nST %MX1\nLD %MX5\nST %MX2\n"
        "LDN %MX0\nAND %MX1\nOR(\nLD %MX0\nANDN %MX1\nANDN %MX2\n)\nST %QX1\n"
        "END_PROGRAM\n");
    free(d);
}

/* 11: "Restarting a timer when both old and new state run it" is a slip. */
static void test_timer_goes_on(void)
{
    struct draft *d = draft_new(100, 1, 0);
    draft_state(d, 0, 1);
    draft_state(d, 0, 0);
    draft_state(d, 0, 0);
    draft_state(d, 0, 0);
    draft_preset(d, 300);
    draft_timer_pair(d, 1, 1);
    draft_timer_pair(d, 1, 2);
    DRAFT_MOVE(d, 1, 2, 0, 1);
    DRAFT_MOVE(d, 2, 3, 0, 101);
    DRAFT_MOVE(d, 2, 2, 0, 1, -101); /* leaves and re-enters itself */
    static const uint64_t inputs[6] = {0, 1, 1, 0, 0, 0};
    static const uint16_t leaves[6] = {1, 2, 2, 3, 3, 3};
    EXPECT_RUN(d, inputs, leaves);
    uint32_t state[2] = {0, 0};
    uint16_t got[3];
    uint64_t on[3];
    ref_chart_run(&d->t, state, 2, inputs, 3, got, 3, on, 3);
    EXPECT(state[0] == 1 && state[1] == 300);
    free(d);
}

/* 12 and 13. 0: 1, 2; 1: 3, 4; 3: 5, 6; 2: 7, 8. Input i alone asks for the
 * i-th move. */
static struct draft *memories(void)
{
    struct draft *d = draft_new(1, 8, 0);
    draft_state(d, 0, 1);
    draft_state(d, 0, 3);
    draft_state(d, 0, 7);
    draft_state(d, 1, 5);
    draft_state(d, 1, 0);
    draft_state(d, 3, 0);
    draft_state(d, 3, 0);
    draft_state(d, 2, 0);
    draft_state(d, 2, 0);
    return d;
}

/* The i-th move is the one whose inputs are the binary digits of i. */
static void numbered_move(struct draft *d, int16_t source, int16_t target,
                          int16_t mark)
{
    int i = (int)(d->t.moves_len / 11) + 1;
    DRAFT_MOVE(d, source, target, mark, i & 1 ? 1 : -1, i & 2 ? 2 : -2,
               i & 4 ? 3 : -3, i & 8 ? 4 : -4);
}

static void test_history_marks(void)
{
    struct draft *d = memories();
    numbered_move(d, 0, 6, 0); /* 1 */
    numbered_move(d, 0, 2, 0); /* 2 */
    numbered_move(d, 0, 1, 1); /* 3: history of 1, all the way down */
    numbered_move(d, 0, 1, 0); /* 4: 1 plain */
    numbered_move(d, 0, 4, 0); /* 5 */
    numbered_move(d, 0, 3, 1); /* 6: history of 3 */
    numbered_move(d, 0, 8, 0); /* 7 */
    numbered_move(d, 0, 0, 1); /* 8: changes nothing */
    numbered_move(d, 0, 0, 0); /* 9: root plain */
    numbered_move(d, 0, 2, 1); /* 10 */
    EXPECT_ACCEPTED(ref_check(&d->t), 0);
    static const uint64_t back[4] = {1, 2, 3, 8};
    static const uint16_t back_leaves[4] = {6, 7, 6, 6};
    EXPECT_RUN(d, back, back_leaves);
    /* plain to 1 sets 1 and 3 to initial, so 6 is forgotten */
    static const uint64_t plain[5] = {1, 2, 4, 2, 3};
    static const uint16_t plain_leaves[5] = {6, 7, 5, 7, 5};
    EXPECT_RUN(d, plain, plain_leaves);
    /* 4 leaves the group of 3 as it was; history of 3 finds 6 */
    static const uint64_t inner[5] = {1, 5, 3, 6, 8};
    static const uint16_t inner_leaves[5] = {6, 4, 4, 6, 6};
    EXPECT_RUN(d, inner, inner_leaves);
    /* root plain sets root, 1 and 3; 2 still remembers 8 */
    static const uint64_t root[4] = {7, 9, 10, 2};
    static const uint16_t root_leaves[4] = {8, 5, 8, 7};
    EXPECT_RUN(d, root, root_leaves);
    /* never visited: initial at each level */
    static const uint64_t never[3] = {10, 5, 6};
    static const uint16_t never_leaves[3] = {7, 4, 5};
    EXPECT_RUN(d, never, never_leaves);
    free(d);
}

/* 12: history to a state at or above its own source changes nothing. */
static void test_history_to_own(void)
{
    struct draft *d = memories();
    numbered_move(d, 6, 3, 1); /* 1 */
    numbered_move(d, 6, 1, 1); /* 2 */
    numbered_move(d, 5, 6, 0); /* 3 */
    numbered_move(d, 6, 1, 0); /* 4 */
    static const uint64_t inputs[5] = {3, 1, 2, 4, 1};
    static const uint16_t leaves[5] = {6, 6, 6, 5, 5};
    EXPECT_RUN(d, inputs, leaves);
    free(d);
}

/* 14: a value can pass its preset; the block's ET cannot. 25: bits above the
 * input count do nothing to a chart. */
static void test_stored_values(void)
{
    struct draft *d = lamp();
    uint32_t state[2] = {1, 300};
    uint16_t leaf;
    uint64_t output;
    EXPECT_ACCEPTED(ref_chart_step(&d->t, state, 2, ~UINT64_C(3), &leaf,
                                   &output), 1);
    EXPECT(leaf == 2 && output == 1 && state[1] == 300);
    d->presets[0] = 86400000;
    d->t.step = 1000;
    state[1] = 86400000;
    EXPECT_ACCEPTED(ref_chart_step(&d->t, state, 2, 0, &leaf, &output), 1);
    EXPECT(state[1] == 86400000);
    d->t.step = 999;
    state[1] = 86400513; /* 86,487 steps */
    EXPECT_ACCEPTED(ref_chart_step(&d->t, state, 2, 0, &leaf, &output), 1);
    EXPECT(state[1] == 86400513);
    state[1] = 86400513 + 999;
    EXPECT_REFUSED(ref_chart_step(&d->t, state, 2, 0, &leaf, &output),
                   REF_STATE, 0);
    free(d);
}

static uint32_t word(uint32_t operator, uint32_t operand)
{
    return operator * UINT32_C(134217728) + operand;
}

/* 24: "Reading LD a, OR( LD b ), AND c as a or (b and c)" is a slip. */
static void test_brackets(void)
{
    const uint32_t words[] = {
        word(1, 385), word(5, 0), word(1, 386), word(6, 0), word(3, 387),
        word(7, 513), word(7, 2)};
    for (uint64_t i = 0; i < 8; i++) {
        uint8_t bytes[3] = {1, 0, 0};
        uint64_t on;
        bool due = ((i & 1) || (i & 2)) && (i & 4);
        EXPECT_ACCEPTED(ref_program_scan(words, 7, 1, bytes, 3, NULL, 0, i,
                                         &on), 1);
        EXPECT(on == due && bytes[0] == 1 && bytes[1] == 0 && bytes[2] == due);
    }
}

/* 25: the last ST decides; S and R act only on a true result; all 64 inputs. */
static void test_stores(void)
{
    const uint32_t words[] = {
        word(1, 448), word(7, 576), word(8, 0), word(2, 448), word(9, 0),
        word(8, 255), word(1, 255), word(7, 513), word(2, 255), word(7, 513),
        word(1, 0), word(7, 514)};
    uint8_t bytes[256] = {0};
    uint64_t on;
    EXPECT_ACCEPTED(ref_program_scan(words, 12, 1, bytes, 256, NULL, 0,
                                     UINT64_C(1) << 63, &on), 1);
    EXPECT(on == (UINT64_C(1) << 63 | 1 | 2) && bytes[0] == 1);
    EXPECT_ACCEPTED(ref_program_scan(words, 12, 1, bytes, 256, NULL, 0,
                                     ~(UINT64_C(1) << 63), &on), 1);
    EXPECT(on == 0 && bytes[0] == 0 && bytes[255] == 1);
}

/* 26: Q matters only to a body that tests it before the block's CAL. */
static void test_block_q(void)
{
    const uint32_t words[] = {
        word(1, 769), word(7, 1025), word(11, 5), word(7, 1281), word(10, 1537),
        word(1, 769), word(7, 513)};
    uint64_t on;
    struct ref_block b = {.q = 200, .et = 4, .last_in = 7};
    EXPECT_ACCEPTED(ref_program_scan(words, 7, 2, NULL, 0, &b, 1, 0, &on), 1);
    EXPECT(on == 1 && b.in == 1 && b.et == 5 && b.q == 1 && b.last_in == 1);
    b = (struct ref_block){.q = 1, .et = 5, .last_in = 0};
    EXPECT_ACCEPTED(ref_program_scan(words, 7, 2, NULL, 0, &b, 1, 0, &on), 1);
    EXPECT(on == 0 && b.in == 1 && b.et == 0 && b.q == 0 && b.last_in == 1);
    b = (struct ref_block){.q = 0, .et = 5, .last_in = 1};
    EXPECT_ACCEPTED(ref_program_scan(words, 7, 2, NULL, 0, &b, 1, 0, &on), 1);
    EXPECT(on == 0 && b.in == 0 && b.et == 0 && b.q == 0 && b.last_in == 0);
}

/* "An accepted call writes its result from the front and keeps the rest". */
static void test_rest_kept(void)
{
    struct draft *d = lamp();
    uint8_t text[1000];
    uint32_t words[100];
    size_t n = strlen(lamp_text);
    memset(text, 'x', sizeof text);
    EXPECT_ACCEPTED(ref_write_tables(&d->t, text, sizeof text), n);
    for (size_t i = n; i < sizeof text; i++)
        EXPECT(text[i] == 'x');
    memset(words, 255, sizeof words);
    EXPECT_REFUSED(ref_read_text(text, n, words, 15), REF_ROOM, 16);
    EXPECT(words[0] == UINT32_MAX);
    EXPECT_ACCEPTED(ref_read_text(text, n, words, 100), 16);
    EXPECT(words[15] == word(7, 513) && words[16] == UINT32_MAX);
    memset(text, 'x', sizeof text);
    EXPECT_REFUSED(ref_write_words(words, 16, text, n - 1), REF_ROOM, n);
    EXPECT(text[0] == 'x');
    EXPECT_ACCEPTED(ref_write_words(words, 16, text, sizeof text), n);
    EXPECT(text[n] == 'x' && memcmp(text, lamp_text, n) == 0);
    free(d);
}

void test_readings(void)
{
    test_root_alone();
    test_free_timers();
    test_narrow_groups();
    test_wide_groups();
    test_timer_goes_on();
    test_history_marks();
    test_history_to_own();
    test_stored_values();
    test_brackets();
    test_stores();
    test_block_q();
    test_rest_kept();
}
