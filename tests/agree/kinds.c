/* Charts of every kind, one by one: the text against the reference's, ROOM one
 * byte short, and random traces on each: the chart's run, the written text read
 * back and run, the program's run, and the reference's history reading must
 * show the same leaves and outputs in every scan.
 *   kinds TRACES SCANS      so many traces a chart, of so many scans */
#include "reference.h"
#include "splicetuck.h"

#include <stdio.h>
#include <stdlib.h>
#include <string.h>

enum { TEXT = 1 << 20, MOST_SCANS = 4096 };

struct chart {
    const char *name;
    uint16_t states[512], timer_pairs[128], output_pairs[128];
    int16_t moves[512 * 11];
    uint32_t presets[32], step, inputs, outputs;
    size_t states_len, moves_len, presets_len, timer_pairs_len,
        output_pairs_len;
};

static struct chart chart;
static uint8_t ours[TEXT], theirs[TEXT];
static uint32_t words[TEXT];
static unsigned charts_done;
static unsigned long long scans_done, leaves_changed;
static unsigned long traces, scans;

static void must(int same, const char *what)
{
    if (same)
        return;
    printf("KINDS: %s: %s differs\n", chart.name, what);
    exit(1);
}

/* ---- making a chart */

static void begin(const char *name, uint32_t step, uint32_t inputs,
                  uint32_t outputs)
{
    memset(&chart, 0, sizeof chart);
    chart.name = name;
    chart.step = step;
    chart.inputs = inputs;
    chart.outputs = outputs;
}

static void state(uint16_t super, uint16_t initial)
{
    chart.states[chart.states_len++] = super;
    chart.states[chart.states_len++] = initial;
}

/* The literals end with 0. */
static void move(int16_t source, int16_t target, int16_t mark,
                 const int16_t *literals)
{
    int16_t *row = chart.moves + chart.moves_len;
    row[0] = source;
    row[1] = target;
    row[2] = mark;
    for (size_t i = 0; i < 8 && literals[i] != 0; i++)
        row[3 + i] = literals[i];
    chart.moves_len += 11;
}
#define ON(...) ((const int16_t[9]){__VA_ARGS__})

static void timer(uint32_t preset)
{
    chart.presets[chart.presets_len++] = preset;
}

static void timer_pair(uint16_t number, uint16_t s)
{
    chart.timer_pairs[chart.timer_pairs_len++] = number;
    chart.timer_pairs[chart.timer_pairs_len++] = s;
}

static void output_pair(uint16_t number, uint16_t s)
{
    chart.output_pairs[chart.output_pairs_len++] = number;
    chart.output_pairs[chart.output_pairs_len++] = s;
}

/* ---- comparing */

#define TABLES chart.step, chart.inputs, chart.outputs, \
    chart.states, chart.states_len, chart.moves, chart.moves_len, \
    chart.presets, chart.presets_len, chart.timer_pairs, \
    chart.timer_pairs_len, chart.output_pairs, chart.output_pairs_len

static struct ref_tables tables(void)
{
    return (struct ref_tables){
        chart.states, chart.states_len, chart.moves, chart.moves_len,
        chart.presets, chart.presets_len, chart.timer_pairs,
        chart.timer_pairs_len, chart.output_pairs, chart.output_pairs_len,
        chart.step, chart.inputs, chart.outputs};
}

static size_t compare_text(void)
{
    struct ref_tables t = tables();
    memset(ours, 0xa5, sizeof ours);
    memset(theirs, 0xa5, sizeof theirs);
    struct splicetuck_answer a = splicetuck_write(TABLES, ours, sizeof ours);
    struct ref_answer b = ref_write_tables(&t, theirs, sizeof theirs);
    must(a.number == 0 && b.number == 0, "the check");
    must(a.length == b.length && memcmp(ours, theirs, sizeof ours) == 0,
         "the text");
    memset(ours, 0xa5, sizeof ours);
    memset(theirs, 0xa5, sizeof theirs);
    struct splicetuck_answer c = splicetuck_write(TABLES, ours, a.length - 1);
    must(c.number == 12 && c.place == a.length
             && memcmp(ours, theirs, sizeof ours) == 0, "ROOM");
    return a.length;
}

static uint64_t state_of_random = 88172645463325252ull;

static uint64_t any(void)
{
    uint64_t x = state_of_random;
    x ^= x << 13;
    x ^= x >> 7;
    x ^= x << 17;
    return state_of_random = x;
}

/* Inputs that come and stay for a while, so that timers expire. */
static void any_inputs(uint64_t *xs)
{
    uint64_t x = 0;
    for (size_t i = 0; i < scans; i++) {
        if (any() % 3 == 0)
            x ^= 1ull << any() % (chart.inputs == 0 ? 64 : chart.inputs);
        xs[i] = any() % 11 == 0 ? any() : x;
    }
}

static void run_program(const uint64_t *xs, size_t words_len, uint64_t *out)
{
    uint8_t bytes[256] = {0};
    struct splicetuck_block blocks[32];
    memset(blocks, 0, sizeof blocks);
    struct splicetuck_sizes c = splicetuck_sizes_of(words, words_len);
    struct splicetuck_answer a = splicetuck_run_program(
        chart.step, words, words_len, bytes, c.flip_flops, blocks, c.blocks, xs,
        scans, out, scans);
    must(c.number == 0 && a.number == 0, "the program's answer");
}

static void compare_trace(size_t text_len)
{
    static uint64_t xs[MOST_SCANS], os[3][MOST_SCANS], read_outputs[MOST_SCANS];
    static uint16_t ls[2][MOST_SCANS], read_leaves[MOST_SCANS];
    uint32_t lent[288] = {0};
    size_t size = scans * sizeof os[0][0], leaves = scans * sizeof ls[0][0];
    struct ref_tables t = tables();
    any_inputs(xs);
    struct ref_answer r = ref_history(&t, xs, scans, read_leaves, scans,
                                      read_outputs, scans);
    must(r.number == 0, "the reading's answer");
    struct splicetuck_answer a = splicetuck_run_chart(
        TABLES, lent, splicetuck_state_length(TABLES).length, xs, scans, ls[0],
        scans, os[0], scans);
    struct splicetuck_answer b = splicetuck_run_written(
        TABLES, ours, sizeof ours, words, sizeof words / sizeof words[0], xs,
        scans, ls[1], scans, os[1], scans);
    must(a.number == 0 && b.number == 0 && b.length == text_len, "an answer");
    run_program(xs, splicetuck_read(ours, text_len, words, TEXT).length, os[2]);
    for (size_t i = 0; i < 3; i++)
        must(memcmp(os[i], read_outputs, size) == 0, "an output word");
    for (size_t i = 0; i < 2; i++)
        must(memcmp(ls[i], read_leaves, leaves) == 0, "a leaf");
    for (size_t i = 1; i < scans; i++)
        leaves_changed += read_leaves[i] != read_leaves[i - 1];
    scans_done += scans;
}

static void end(void)
{
    size_t text_len = compare_text();
    for (unsigned long i = 0; i < traces; i++)
        compare_trace(text_len);
    charts_done++;
}

/* ---- the charts */

static void root_alone(void)
{
    begin("the root alone", 100, 1, 2);
    state(0, 0);
    move(0, 0, 0, ON(1));
    output_pair(2, 0);
    end();
}

static void one_sub_state(void)
{
    begin("one sub-state, moves that set no flip-flop", 1000, 2, 1);
    state(0, 1);
    state(0, 0);
    timer(1);
    timer_pair(1, 1);
    output_pair(1, 1);
    move(1, 0, 0, ON(1, 101));
    move(1, 0, 1, ON(-1, 2));
    end();
}

/* A ring of n sub-states of the root, the last of them initial. */
static void ring(uint16_t n)
{
    char name[40];
    snprintf(name, sizeof name, "a ring of %u sub-states", n);
    begin(name, 100, 2, 1);
    state(0, n);
    for (uint16_t s = 1; s <= n; s++)
        state(0, 0);
    for (int16_t s = 1; s <= n; s++)
        move(s, s == n ? 1 : s + 1, 0, ON(1, -2));
    output_pair(1, n);
    end();
}

/* States 2k - 1 and 2k below 2k - 3; the odd ones have sub-states down to depth
 * 8. Each level is left on its own input and come back to by input 9. */
static void deep(uint16_t mark)
{
    static const int16_t order[8] = {1, 2, 3, 4, 5, 6, 7, 8};
    begin(mark ? "depth 8, history at each level" : "depth 8, plain", 10, 9, 9);
    state(0, 1);
    for (uint16_t k = 1; k <= 8; k++) {
        uint16_t above = k == 1 ? 0 : 2 * k - 3;
        state(above, k < 8 ? 2 * k + 1 : 0);
        state(above, 0);
    }
    for (int16_t k = 1; k <= 8; k++) {
        int16_t leave[9] = {0}, back[9] = {0};
        leave[0] = k;
        back[0] = 9;
        for (int16_t j = 1; j < k; j++)
            leave[j] = back[j] = -order[j - 1];
        move(2 * k - 1, 2 * k, 0, leave);
        move(2 * k, 2 * k - 1, k < 8 ? mark : 0, back);
    }
    for (uint16_t k = 1; k <= 8; k++)
        output_pair(k, 2 * k);
    output_pair(9, 0);
    end();
}

static void many_timers(void)
{
    begin("32 timers", 7, 1, 0);
    state(0, 1);
    state(0, 0);
    state(0, 0);
    for (uint16_t t = 1; t <= 32; t++) {
        timer(t * t);
        timer_pair(t, 1 + t % 2);
    }
    move(1, 2, 0, ON(102, 104, 116, -132));
    move(2, 1, 0, ON(101, 1, -131));
    end();
}

static void no_outputs_paired(void)
{
    begin("64 inputs and outputs, two paired", 100, 64, 64);
    state(0, 2);
    state(0, 0);
    state(0, 0);
    output_pair(63, 1);
    output_pair(64, 2);
    move(2, 1, 0, ON(64));
    move(1, 2, 0, ON(-64));
    end();
}

static void to_the_root(uint16_t mark)
{
    begin(mark ? "history moves to the root" : "plain moves to the root", 50, 3,
          2);
    state(0, 1);
    state(0, 3);
    state(0, 0);
    state(1, 0);
    state(1, 0);
    move(3, 4, 0, ON(1, -2));
    move(4, 0, mark, ON(2));
    move(1, 2, 0, ON(3, -2, -1));
    move(2, 0, mark, ON(2));
    move(2, 1, mark, ON(1, -2));
    output_pair(1, 1);
    output_pair(2, 4);
    end();
}

static void on_the_root(void)
{
    begin("pairs on the root", 100, 1, 1);
    state(0, 2);
    state(0, 0);
    state(0, 0);
    timer(1000);
    timer_pair(1, 0);
    output_pair(1, 0);
    move(1, 2, 0, ON(1, 101));
    move(2, 1, 0, ON(-1));
    end();
}

/* Two nested groups, a timer each on an inner group, an outer one and its
 * neighbour; moves to the own source and above it. */
static void nested(uint16_t mark)
{
    begin(mark ? "nested history, timers" : "nested, plain, timers", 100, 4, 4);
    state(0, 1);
    state(0, 3);
    state(0, 8);
    state(1, 6);
    state(1, 0);
    state(3, 0);
    state(3, 0);
    state(2, 0);
    state(2, 0);
    timer(250);
    timer(300);
    timer(700);
    timer_pair(1, 3);
    timer_pair(2, 2);
    timer_pair(3, 1);
    timer_pair(3, 7);
    move(5, 6, 0, ON(1, -2, -3, -4));
    move(6, 5, 0, ON(1, -2, -3, -4));
    move(3, 4, 0, ON(101, 2, -3, -4));
    move(4, 3, mark, ON(1, -3, -4));
    move(1, 2, mark, ON(3, -4));
    move(7, 8, 0, ON(1, -3, -4));
    move(8, 7, 0, ON(102, 1, -3, -4));
    move(2, 1, mark, ON(3, -4));
    move(1, 1, mark, ON(4, 103));
    move(2, 2, 0, ON(4));
    output_pair(1, 3);
    output_pair(2, 2);
    output_pair(3, 6);
    output_pair(4, 0);
    output_pair(4, 5);
    end();
}

int main(int argc, char **argv)
{
    static const uint16_t rings[] = {1, 2, 3, 4, 5, 8, 9, 17, 33, 65, 129, 255};
    traces = argc > 1 ? strtoul(argv[1], NULL, 10) : 4;
    scans = argc > 2 ? strtoul(argv[2], NULL, 10) : 200;
    if (scans > MOST_SCANS)
        scans = MOST_SCANS;
    root_alone();
    one_sub_state();
    for (size_t i = 0; i < sizeof rings / sizeof rings[0]; i++)
        ring(rings[i]);
    many_timers();
    no_outputs_paired();
    on_the_root();
    for (uint16_t mark = 0; mark < 2; mark++) {
        deep(mark);
        to_the_root(mark);
        nested(mark);
    }
    printf("KINDS: %u charts, %llu scans, %llu changes of the leaf: the same\n",
           charts_done, scans_done, leaves_changed);
    return 0;
}
