/* The run of instruction words, all scans in one call or one scan, over the
 * cases in programs.cases, a line each, in five sections with | between them:
 *   the label
 *   "scan 0; step 100; blocks 1; et 0; last 0; q 0; scans 5; results 5;":
 *      whether it is one scan, the step, how many blocks, the ET, last IN and Q
 *      of each of them (IN is off, PT 0), how many scans and results; one scan
 *      has no results
 *   the flip-flop bytes
 *   the input words, of which the last is repeated
 *   the instruction words
 * A number of the last three ends in ";"; "2+5" is the word of operator 2 and
 * operand 5.
 *
 * Printed are the label, the answer ("RAN,scans" or of one scan
 * "OUTPUTS,word", or "REFUSED,number,place"), and what the call left: the
 * flip-flop bytes, the IN, PT, ET, Q and last IN of each block, and each result
 * with how often it stands there in a row. Every result is 7 before.
 *
 * What the lines should be, in programs.expected, was worked out from document
 * 01. */
#include "cases.h"

#include <stdio.h>
#include <string.h>

/* ---- A case ---- */

enum { MOST_BLOCKS = 4 };

static struct {
    bool one;
    uint32_t step;
    size_t blocks_len, scans, results;
    struct splicetuck_block blocks[MOST_BLOCKS];
    struct numbers flip_flops, inputs, words;
} c;

/* "name number;" */
static uint64_t read_named(const char **at, const char *name, uint64_t most)
{
    read_mark(at, name);
    uint64_t number = read_number(at, most);
    read_mark(at, ";");
    return number;
}

static void read_head(const char **at)
{
    struct splicetuck_block b = {.on = false};
    c.one = read_named(at, "scan ", 1);
    c.step = (uint32_t)read_named(at, " step ", UINT32_MAX);
    c.blocks_len = read_named(at, " blocks ", MOST_BLOCKS);
    b.et = (uint32_t)read_named(at, " et ", UINT32_MAX);
    b.last = read_named(at, " last ", 1);
    b.q = read_named(at, " q ", 1);
    c.scans = read_named(at, " scans ", CAPACITY);
    c.results = read_named(at, " results ", CAPACITY);
    for (size_t i = 0; i < MOST_BLOCKS; i++)
        c.blocks[i] = b;
    if (c.one && (c.scans != 1 || c.results != 0))
        wrong("one scan with %zu scans and %zu results", c.scans, c.results);
}

static void read_numbers(const char **at, struct numbers *list, uint64_t most)
{
    clear(list);
    while (**at != '|') {
        push(list, read_number(at, most));
        read_mark(at, ";");
    }
}

static void read_words(const char **at, struct numbers *list)
{
    clear(list);
    while (**at != '\0') {
        bool whole = (*at)[strspn(*at, "0123456789")] == ';';
        push(list, whole ? read_number(at, UINT32_MAX) : read_word(at));
        read_mark(at, ";");
    }
}

/* One input word for each scan. */
static void repeat_last(struct numbers *inputs, size_t scans)
{
    if (inputs->len > scans || (inputs->len == 0 && scans > 0))
        wrong("%zu input words for %zu scans", inputs->len, scans);
    while (inputs->len < scans)
        push(inputs, inputs->at[inputs->len - 1]);
}

static void read_case(const char *at)
{
    const char *label = at;
    if (read_up_to(&at, "|") == 0)
        wrong("no label");
    printf("%.*s\n", (int)(at - label), label);
    read_mark(&at, "|");
    read_head(&at);
    read_mark(&at, "|");
    read_numbers(&at, &c.flip_flops, UINT8_MAX);
    read_mark(&at, "|");
    read_numbers(&at, &c.inputs, UINT64_MAX);
    read_mark(&at, "|");
    read_words(&at, &c.words);
    repeat_last(&c.inputs, c.scans);
}

/* ---- What is printed ---- */

static void tell_answer(const char *name, uint32_t number, uint64_t told)
{
    if (number == 0)
        printf("%s,%" PRIu64 "\n", name, told);
    else
        printf("REFUSED,%" PRIu32 ",%" PRIu64 "\n", number, told);
}

static void tell_bytes(const struct lent *l)
{
    printf("BYTES");
    for (size_t i = 0; i < l->len; i++)
        printf(",%" PRIu64, number_in(l, i));
    putchar('\n');
}

static void tell_blocks(const struct lent *l)
{
    const struct splicetuck_block *blocks = l->at;
    for (size_t i = 0; i < l->len; i++) {
        const struct splicetuck_block *b = &blocks[i];
        printf("T%zu,%d,%" PRIu32 ",%" PRIu32 ",%d,%d\n", i + 1, b->on, b->pt,
               b->et, b->q, b->last);
    }
}

static void tell_results(const struct lent *l)
{
    printf("RESULTS");
    for (size_t i = 0, next; i < l->len; i = next) {
        next = i + 1;
        while (next < l->len && number_in(l, next) == number_in(l, i))
            next++;
        printf(",%" PRIu64 "*%zu", number_in(l, i), next - i);
    }
    putchar('\n');
}

/* ---- The calls ---- */

static uint32_t run(const struct lent *words, struct lent *bytes,
                    struct lent *blocks, struct lent *results)
{
    struct lent inputs = lend_numbers(&c.inputs, c.inputs.len, 8);
    struct splicetuck_answer a = splicetuck_run_program(
        c.step, words->at, words->len, bytes->at, bytes->len,
        blocks->at, blocks->len, inputs.at, inputs.len,
        results->at, results->len);
    take_back(&inputs, true);
    tell_answer("RAN", a.number, place_or_length(a));
    return a.number;
}

static uint32_t scan(const struct lent *words, struct lent *bytes,
                     struct lent *blocks)
{
    struct splicetuck_scan s = splicetuck_scan_program(
        c.step, words->at, words->len, bytes->at, bytes->len,
        blocks->at, blocks->len, c.inputs.at[0]);
    if (s.number == 0 ? s.place != 0 : s.outputs != 0)
        wrong("a scan answers too much");
    tell_answer("OUTPUTS", s.number, s.number == 0 ? s.outputs : s.place);
    return s.number;
}

static void run_case(void)
{
    struct lent words = lend_numbers(&c.words, c.words.len, 4);
    struct lent bytes = lend_numbers(&c.flip_flops, c.flip_flops.len, 1);
    struct lent blocks = lend(c.blocks, c.blocks_len, sizeof c.blocks[0]);
    struct lent results = lend_same(7, c.results, 8);
    uint32_t number = c.one ? scan(&words, &bytes, &blocks)
        : run(&words, &bytes, &blocks, &results);
    tell_bytes(&bytes);
    tell_blocks(&blocks);
    if (!c.one)
        tell_results(&results);
    take_back(&words, true);
    take_back(&bytes, number != 0);
    take_back(&blocks, number != 0);
    take_back(&results, number != 0);
}

int main(void)
{
    for (const char *line; (line = next_line()) != NULL;) {
        read_case(line);
        run_case();
    }
    return finish();
}
