/* Shared by the parts of the self-test. */
#ifndef SELFTEST_H
#define SELFTEST_H

#include <stdbool.h>

#include "reference.h"

/* Counts a check and reports it when it fails. */
void expect_at(bool good, const char *what, const char *file, int line);
#define EXPECT(good) expect_at((good), #good, __FILE__, __LINE__)

bool same(struct ref_answer a, uint32_t number, uint64_t place,
          uint64_t length);
#define EXPECT_REFUSED(answer, number, place) \
    expect_at(same((answer), (number), (place), 0), #answer, __FILE__, __LINE__)
#define EXPECT_ACCEPTED(answer, length) \
    expect_at(same((answer), 0, 0, (length)), #answer, __FILE__, __LINE__)

/* A repeatable random number; one below n; true once in n. */
uint64_t any64(void);
uint32_t below(uint32_t n);
bool once_in(uint32_t n);

void *must_alloc(size_t n);

/* Tables being drafted, with some room beyond every limit. */
struct draft {
    uint16_t states[2 * 300];
    int16_t moves[11 * 520];
    uint32_t presets[40];
    uint16_t timer_pairs[2 * 2060];
    uint16_t output_pairs[2 * 2060];
    struct ref_tables t; /* points into the arrays above */
};

struct draft *draft_new(uint32_t step, uint32_t inputs, uint32_t outputs);
void draft_state(struct draft *d, unsigned super, unsigned initial);
void draft_move_row(struct draft *d, const int16_t row[11]);
#define DRAFT_MOVE(d, ...) draft_move_row((d), (const int16_t[11]){__VA_ARGS__})
void draft_preset(struct draft *d, uint32_t preset);
void draft_timer_pair(struct draft *d, unsigned timer, unsigned state);
void draft_output_pair(struct draft *d, unsigned output, unsigned state);

/* The same tables in arrays of just their length, so that a read beyond the
 * end is seen; and their end. */
struct ref_tables exact(const struct ref_tables *t);
void exact_free(struct ref_tables *t);

/* Every call that takes tables must give this refusal and touch nothing. */
void expect_tables_refused(const struct ref_tables *t, uint32_t number,
                           uint64_t place, const char *file, int line);
#define EXPECT_TABLES(t, number, place) \
    expect_tables_refused((t), (number), (place), __FILE__, __LINE__)

/* The Lamp of 01, and chart (e). */
struct draft *lamp(void);
struct draft *chart_e(void);
extern const char lamp_text[];

/* The words of an accepted chart's text, on the heap. */
uint32_t *words_of_chart(const struct ref_tables *t, size_t *n);
/* And its text, on the heap, with a 0 after it. */
char *text_of_chart(const struct ref_tables *t, size_t *n);

/* Random tables (selftest_random.c): states, timers and pairs without moves, of
 * at most 6 inputs and 3 timers; and one move more, in which the first `whole`
 * inputs always stand. */
struct draft *any_frame(unsigned n);
void any_move(struct draft *d, unsigned n, unsigned whole);

/* The plain definitions: a state on the path to another; the literals of a move
 * under a setting; two moves of a random frame under each of its settings. */
bool at_or_above(const struct draft *d, unsigned above, unsigned s);
bool is_leaf(const struct draft *d, unsigned s);
bool holds(const int16_t *row, uint64_t inputs, uint64_t timers);
bool overlap(const struct draft *d, const int16_t *a, const int16_t *b);

/* The witness as it is due, all of it. */
void expect_witness(const struct ref_tables *t, struct ref_witness due,
                    const char *file, int line);
#define EXPECT_WITNESS(t, ...) \
    expect_witness((t), (struct ref_witness){__VA_ARGS__}, __FILE__, __LINE__)

/* The parts. */
void test_examples(void);
void test_refusals(void);
void test_readings(void);
void test_text(void);
void test_records(void);
void test_random(void);
void test_witness(void);
void test_needs(void);

#endif
