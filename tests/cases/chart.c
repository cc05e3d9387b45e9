/* The check of the tables and the run of a chart, over the cases in
 * chart.cases. A line there starts with a letter, and a space before the rest.
 *
 * Lists of numbers, with a space or a comma between two; "3*7" is 7 three
 * times. Each stays until it is given anew:
 *   f  step, inputs, outputs
 *   s  states    m  moves    p  presets    t  timer pairs    o  output pairs
 *   v  the state
 *   i  the input words
 *   q  how many leaves and outputs are lent, and how many numbers of the state
 *      are shown: those behind the lent ones are 0 and not lent
 *   M, T, O  a column of m, t or o, whose rows must be there: the column from
 *      0, how many columns and rows there are, in how many rows each number
 *      stands, and the numbers, which begin again behind the last
 * Calls, with the label that is printed:
 *   c  the check: "label number,place", with document 01's number and place of
 *      the refusal
 *   r  the run over all scans: "label number,place,scans: leaves; outputs;
 *      state", the lent slices as they are after the call; leaves and outputs
 *      were 9 before it
 *   l  as r, but of the leaves and of the outputs only the sum
 *   1  (without a label) the same scans one by one: "leaf/outputs" each, or
 *      "number,place" where a scan is refused, and the state
 * And  #  how the lines of the next cases were worked out.
 *
 * What the lines should be, in chart.expected, was worked out by hand from
 * document 01. */
#include "cases.h"

#include <stdio.h>
#include <string.h>

/* ---- What the letters give ---- */

enum {
    FRAME, STATES, MOVES, PRESETS, TIMER_PAIRS, OUTPUT_PAIRS,
    STATE, INPUTS, SHOWN, TABLES
};

struct table {
    char letter, column;   /* column: the letter of its columns, or 0 */
    size_t width;          /* numbers a row, where it has columns */
    size_t just;           /* how many numbers it must have, or 0 for any */
    size_t each;           /* bytes a number, where it is lent */
    uint64_t below, most;  /* -below to most */
    bool given;
    struct numbers list;
};

static struct table tables[TABLES] = {
    [FRAME] = {.letter = 'f', .just = 3, .most = UINT32_MAX},
    [STATES] = {.letter = 's', .each = 2, .most = UINT16_MAX},
    [MOVES] = {.letter = 'm', .column = 'M', .width = 11, .each = 2,
               .below = -(int64_t)INT16_MIN, .most = INT16_MAX},
    [PRESETS] = {.letter = 'p', .each = 4, .most = UINT32_MAX},
    [TIMER_PAIRS] = {.letter = 't', .column = 'T', .width = 2, .each = 2,
                     .most = UINT16_MAX},
    [OUTPUT_PAIRS] = {.letter = 'o', .column = 'O', .width = 2, .each = 2,
                      .most = UINT16_MAX},
    [STATE] = {.letter = 'v', .each = 4, .most = UINT32_MAX},
    [INPUTS] = {.letter = 'i', .each = 8, .most = UINT64_MAX},
    [SHOWN] = {.letter = 'q', .just = 3, .most = CAPACITY},
};

/* A number of the table's type. */
static uint64_t read_in(const struct table *t, const char **at)
{
    if (**at != '-' || t->below == 0)
        return read_number(at, t->most);
    ++*at;
    return -read_number(at, t->below);
}

/* How often the next number stands there. */
static uint64_t read_times(const char **at)
{
    if ((*at)[strspn(*at, "0123456789")] != '*')
        return 1;
    uint64_t times = read_number(at, CAPACITY);
    read_mark(at, "*");
    return times;
}

/* Behind a number: is there another? */
static bool read_separator(const char **at)
{
    if (**at == '\0')
        return false;
    if (**at != ' ' && **at != ',')
        wrong("no space or comma before \"%s\"", *at);
    ++*at;
    return true;
}

static void read_list(struct table *t, const char *at)
{
    clear(&t->list);
    t->given = true;
    while (read_separator(&at)) {
        uint64_t times = read_times(&at), number = read_in(t, &at);
        for (uint64_t i = 0; i < times; i++)
            push(&t->list, number);
    }
    if (t->just != 0 && t->list.len != t->just)
        wrong("%zu numbers, not %zu", t->list.len, t->just);
}

static uint64_t read_behind_space(const char **at, uint64_t most)
{
    read_mark(at, " ");
    return read_number(at, most);
}

static void read_column(struct table *t, const char *at)
{
    static struct numbers list;
    clear(&list);
    uint64_t column = read_behind_space(&at, t->width - 1);
    uint64_t columns = read_behind_space(&at, CAPACITY);
    uint64_t rows = read_behind_space(&at, CAPACITY);
    uint64_t each = read_behind_space(&at, CAPACITY);
    while (read_separator(&at))
        push(&list, read_in(t, &at));
    if (columns != t->width || rows * columns != t->list.len)
        wrong("%" PRIu64 " rows of %" PRIu64 " columns, but %zu numbers of %zu",
              rows, columns, t->list.len, t->width);
    if (each == 0 || list.len == 0)
        wrong("a column without numbers");
    for (size_t row = 0; row < rows; row++)
        t->list.at[row * columns + column] = list.at[row / each % list.len];
}

/* ---- The calls ---- */

/* Just as long as the case gives it. */
static struct lent lend_table(const struct table *t)
{
    return lend_numbers(&t->list, t->list.len, t->each);
}

static void lend_tables(struct lent l[TABLES])
{
    for (size_t k = STATES; k <= OUTPUT_PAIRS; k++)
        l[k] = lend_table(&tables[k]);
}

static void take_tables_back(struct lent l[TABLES])
{
    for (size_t k = STATES; k <= OUTPUT_PAIRS; k++)
        take_back(&l[k], true);
}

/* The thirteen arguments that stand for the tables. */
#define FRAME_NUMBER(i) (uint32_t)tables[FRAME].list.at[i]
#define LENT_TABLES(l) \
    FRAME_NUMBER(0), FRAME_NUMBER(1), FRAME_NUMBER(2), \
    (l)[STATES].at, (l)[STATES].len, (l)[MOVES].at, (l)[MOVES].len, \
    (l)[PRESETS].at, (l)[PRESETS].len, \
    (l)[TIMER_PAIRS].at, (l)[TIMER_PAIRS].len, \
    (l)[OUTPUT_PAIRS].at, (l)[OUTPUT_PAIRS].len

static void must_be_given(size_t last)
{
    for (size_t k = FRAME; k <= last; k++)
        if (!tables[k].given)
            wrong("a call without %c", tables[k].letter);
}

static void check(const char *label)
{
    struct lent l[TABLES];
    must_be_given(OUTPUT_PAIRS);
    lend_tables(l);
    struct splicetuck_answer a = splicetuck_check(LENT_TABLES(l));
    if (a.length != 0)
        wrong("the check answers a length");
    printf("%s %" PRIu32 ",%" PRIu64 "\n", label, a.number, a.place);
    take_tables_back(l);
}

/* A state with the numbers behind it that are shown and not lent. */
static struct lent lend_state(const struct numbers *state)
{
    size_t shown = tables[SHOWN].list.at[2];
    if (shown < state->len)
        wrong("not the whole state is shown");
    return lend_numbers(state, shown, tables[STATE].each);
}

static void show(const struct lent *l)
{
    for (size_t i = 0; i < l->len; i++)
        printf(" %" PRIu64, number_in(l, i));
}

static void show_sum(const struct lent *l)
{
    uint64_t sum = 0;
    for (size_t i = 0; i < l->len; i++)
        sum += number_in(l, i);
    printf(" %" PRIu64, sum);
}

static void run(const char *label, void (*show_results)(const struct lent *))
{
    struct lent l[TABLES];
    must_be_given(SHOWN);
    lend_tables(l);
    struct lent inputs = lend_table(&tables[INPUTS]);
    struct lent state = lend_state(&tables[STATE].list);
    struct lent leaves = lend_same(9, tables[SHOWN].list.at[0], 2);
    struct lent outputs = lend_same(9, tables[SHOWN].list.at[1], 8);
    struct splicetuck_answer a = splicetuck_run_chart(
        LENT_TABLES(l), state.at, tables[STATE].list.len,
        inputs.at, inputs.len, leaves.at, leaves.len, outputs.at, outputs.len);
    printf("%s %" PRIu32 ",%" PRIu64 ",%" PRIu64 ":", label, a.number, a.place,
           a.length);
    show_results(&leaves);
    putchar(';');
    show_results(&outputs);
    putchar(';');
    show(&state);
    putchar('\n');
    take_back(&leaves, a.number != 0);
    take_back(&outputs, a.number != 0);
    take_back(&state, a.number != 0);
    take_back(&inputs, true);
    take_tables_back(l);
}

/* One scan, with the state before it and after it. */
static void scan(struct numbers *state, uint64_t input)
{
    struct lent l[TABLES];
    lend_tables(l);
    struct lent lent = lend_state(state);
    struct splicetuck_step s = splicetuck_step_chart(
        LENT_TABLES(l), lent.at, state->len, input);
    if (s.number == 0 ? s.place != 0 : s.leaf != 0 || s.outputs != 0)
        wrong("a scan answers too much");
    if (s.number == 0)
        printf(" %" PRIu16 "/%" PRIu64, s.leaf, s.outputs);
    else
        printf(" %" PRIu32 ",%" PRIu64, s.number, s.place);
    for (size_t i = 0; i < lent.len; i++)
        state->at[i] = number_in(&lent, i);
    take_back(&lent, s.number != 0);
    take_tables_back(l);
}

static void one_by_one(void)
{
    static struct numbers state;
    const struct numbers *inputs = &tables[INPUTS].list;
    must_be_given(SHOWN);
    state = tables[STATE].list;
    printf("  one by one:");
    for (size_t i = 0; i < inputs->len; i++)
        scan(&state, inputs->at[i]);
    putchar(';');
    struct lent last = lend_state(&state);
    show(&last);
    putchar('\n');
    take_back(&last, true);
}

/* ---- The lines ---- */

/* Whether the letter gives numbers. */
static bool give(const char *line)
{
    for (size_t k = 0; k < TABLES; k++) {
        bool list = line[0] == tables[k].letter;
        if (!list && (line[0] != tables[k].column || tables[k].column == 0))
            continue;
        if (line[1] != '\0' && line[1] != ' ')
            wrong("no space behind the letter: \"%s\"", line);
        (list ? read_list : read_column)(&tables[k], line + 1);
        return true;
    }
    return false;
}

static void call(const char *line)
{
    if (strcmp(line, "1") == 0) {
        one_by_one();
        return;
    }
    const char *label = line + 2;
    if (line[0] == '\0' || line[1] != ' ' || *label == '\0')
        wrong("no letter with its label: \"%s\"", line);
    switch (line[0]) {
    case 'c': check(label); break;
    case 'r': run(label, show); break;
    case 'l': run(label, show_sum); break;
    default: wrong("unknown letter: \"%s\"", line);
    }
}

int main(void)
{
    for (const char *line; (line = next_line()) != NULL;)
        if (line[0] != '#' && !give(line))
            call(line);
    return finish();
}
