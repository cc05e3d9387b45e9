/* Our time over that of C, call by call, and how it grows with size.
 *
 * Both sides run in the same process, in turn; a time is the least of several
 * samples of the process's own time, so that a loaded machine changes little.
 * Nothing is asserted about the times. Every row's answers are compared once
 * before it is measured. */
#define _POSIX_C_SOURCE 200809L
#include "charts.h"
#include "fast.h"
#include "splicetuck.h"

#include <inttypes.h>
#include <stdbool.h>
#include <stdio.h>
#include <stdlib.h>
#include <string.h>
#include <time.h>

enum { SAMPLES = 7, MOST_WORDS = 160000, MOST_TEXT = 4 << 20 };

#define LEAST_SAMPLE 0.004 /* seconds */

/* What the calls of the row at hand work on. Two of each result, compared after
 * the first calls; they are never cleared, and stay in the caches from call to
 * call. */
static struct chart chart;
static struct ref_tables tables;
static uint32_t words[MOST_WORDS], words_back[2][MOST_WORDS];
static uint8_t text[MOST_TEXT], texts[2][MOST_TEXT];
static size_t words_len, text_len, scans;
static uint64_t inputs[MOST_SCANS], outputs[2][MOST_SCANS];
static uint16_t leaves[2][MOST_SCANS];
static uint32_t state[2][STATES + TIMERS];
static size_t state_len;

struct answer {
    uint32_t number;
    uint64_t place, length;
};

typedef struct answer call(void);

static struct answer ours(struct splicetuck_answer a)
{
    return (struct answer){a.number, a.place, a.length};
}

static struct answer theirs(struct ref_answer a)
{
    return (struct answer){a.number, a.place, a.length};
}

#define TABLES chart.step, chart.inputs, chart.outputs, chart.states, chart.states_len, \
    chart.moves, chart.moves_len, chart.presets, chart.presets_len, \
    chart.timer_pairs, chart.timer_pairs_len, chart.output_pairs, chart.output_pairs_len

static struct answer our_check(void)
{
    return ours(splicetuck_check(TABLES));
}

static struct answer their_check(void)
{
    return theirs(ref_check(&tables));
}

static struct answer our_write(void)
{
    return ours(splicetuck_write(TABLES, texts[0], MOST_TEXT));
}

static struct answer their_write(void)
{
    return theirs(fast_write_tables(&tables, texts[1], MOST_TEXT));
}

static struct answer their_slow_write(void)
{
    return theirs(ref_write_tables(&tables, texts[1], MOST_TEXT));
}

static struct answer our_write_words(void)
{
    return ours(splicetuck_write_words(words, words_len, texts[0], MOST_TEXT));
}

static struct answer their_write_words(void)
{
    return theirs(fast_write_words(words, words_len, texts[1], MOST_TEXT));
}

static struct answer their_slow_write_words(void)
{
    return theirs(ref_write_words(words, words_len, texts[1], MOST_TEXT));
}

static struct answer our_read(void)
{
    return ours(splicetuck_read(text, text_len, words_back[0], MOST_WORDS));
}

static struct answer their_read(void)
{
    return theirs(fast_read_text(text, text_len, words_back[1], MOST_WORDS));
}

static struct answer their_slow_read(void)
{
    return theirs(ref_read_text(text, text_len, words_back[1], MOST_WORDS));
}

/* The lent state is the start's in every call. */
static struct answer our_run(void)
{
    memset(state[0], 0, sizeof state[0]);
    return ours(splicetuck_run_chart(TABLES, state[0], state_len, inputs, scans,
                                     leaves[0], scans, outputs[0], scans));
}

static struct answer their_run(void)
{
    memset(state[1], 0, sizeof state[1]);
    return theirs(ref_chart_run(&tables, state[1], state_len, inputs, scans,
                                leaves[1], scans, outputs[1], scans));
}

static uint8_t flip_flops[2][256];
static struct splicetuck_block blocks[TIMERS];
static struct ref_block ref_blocks[TIMERS];
static size_t flip_flops_len, blocks_len;

static struct answer our_program(void)
{
    memset(flip_flops[0], 0, sizeof flip_flops[0]);
    memset(blocks, 0, sizeof blocks);
    return ours(splicetuck_run_program(chart.step, words, words_len, flip_flops[0],
                                       flip_flops_len, blocks, blocks_len, inputs, scans,
                                       outputs[0], scans));
}

static struct answer their_program(void)
{
    memset(flip_flops[1], 0, sizeof flip_flops[1]);
    memset(ref_blocks, 0, sizeof ref_blocks);
    return theirs(ref_program_run(words, words_len, chart.step, flip_flops[1],
                                  flip_flops_len, ref_blocks, blocks_len, inputs, scans,
                                  outputs[1], scans));
}

static double now(void)
{
    struct timespec t;
    clock_gettime(CLOCK_PROCESS_CPUTIME_ID, &t);
    return (double)t.tv_sec + (double)t.tv_nsec / 1e9;
}

static double sample(call *f, size_t times)
{
    double began = now();
    for (size_t i = 0; i < times; i++)
        f();
    return (now() - began) / (double)times;
}

/* How often f is called in a sample. */
static size_t often(call *f)
{
    size_t times = 1;
    while (sample(f, times) * (double)times < LEAST_SAMPLE)
        times *= 2;
    return times;
}

struct times {
    double ours, theirs;
};

static bool same_results(void)
{
    return memcmp(texts[0], texts[1], MOST_TEXT) == 0
        && memcmp(words_back[0], words_back[1], sizeof words_back[0]) == 0
        && memcmp(leaves[0], leaves[1], sizeof leaves[0]) == 0
        && memcmp(outputs[0], outputs[1], sizeof outputs[0]) == 0
        && memcmp(state[0], state[1], sizeof state[0]) == 0;
}

static void must(bool good, const char *what)
{
    if (good)
        return;
    printf("%s: the two sides differ, or refuse\n", what);
    exit(1);
}

static struct times measure(const char *what, call *f, call *g)
{
    struct answer a = f(), b = g();
    must(a.number == 0 && b.number == 0 && a.length == b.length && same_results(), what);
    size_t n = often(f), m = often(g);
    struct times least = {1e9, 1e9};
    for (int i = 0; i < SAMPLES; i++) {
        double p = sample(f, n), r = sample(g, m);
        least.ours = p < least.ours ? p : least.ours;
        least.theirs = r < least.theirs ? r : least.theirs;
    }
    return least;
}

static struct times row(const char *what, call *f, call *g)
{
    struct times t = measure(what, f, g);
    printf("| %-58s | %10.2f | %10.2f | %6.2f |\n", what, t.ours * 1e6, t.theirs * 1e6,
           t.ours / t.theirs);
    fflush(stdout);
    return t;
}

static void heading(const char *what, const char *side)
{
    printf("\n%s\n\n| %-58s | product us | %10s | ratio  |\n|---|---:|---:|---:|\n", what, "job", side);
}

static void lend(void (*fill)(struct chart *))
{
    fill(&chart);
    tables = tables_of(&chart);
    state_len = ref_state_length(&tables).length;
}

/* The words of the chart's own text, and that text. */
static void take_words(void)
{
    text_len = ref_write_tables(&tables, text, MOST_TEXT).length;
    words_len = ref_read_text(text, text_len, words, MOST_WORDS).length;
}

static void take_long(size_t n)
{
    words_len = n;
    fill_words(words, n);
    text_len = ref_write_words(words, n, text, MOST_TEXT).length;
}

static void each_chart(const char *name, call *f, call *g)
{
    char what[80];
    void (*fills[])(struct chart *) = {fill_lamp, fill_widest, fill_corner};
    for (size_t i = 0; i < 3; i++) {
        lend(fills[i]);
        take_words();
        snprintf(what, sizeof what, "%s, %s", name, chart.name);
        row(what, f, g);
    }
}

static void runs(const char *name, call *f, call *g, size_t n)
{
    char what[80];
    void (*fills[])(struct chart *) = {fill_lamp, fill_widest};
    for (size_t i = 0; i < 2; i++) {
        lend(fills[i]);
        scans = n;
        snprintf(what, sizeof what, "%s, %s, %zu scan%s", name, chart.name, n, n == 1 ? "" : "s");
        row(what, f, g);
    }
}

static void lend_program(void)
{
    struct splicetuck_sizes s;
    take_words();
    s = splicetuck_sizes_of(words, words_len);
    flip_flops_len = s.flip_flops;
    blocks_len = s.blocks;
}

static void program_runs(size_t n)
{
    char what[80];
    void (*fills[])(struct chart *) = {fill_lamp, fill_widest};
    for (size_t i = 0; i < 2; i++) {
        lend(fills[i]);
        lend_program();
        scans = n;
        snprintf(what, sizeof what, "program run, %s, %zu scan%s", chart.name, n,
                 n == 1 ? "" : "s");
        row(what, our_program, their_program);
    }
}

/* Records: a file's bytes to its numbers. */
static uint8_t csv[1 << 18];
static size_t csv_len;
static uint32_t csv_kind;
static uint64_t numbers[2][8192];

static struct answer our_records(void)
{
    return ours(splicetuck_read_records(csv_kind, csv, csv_len, numbers[0], 8192));
}

static struct answer their_records(void)
{
    return theirs(ref_read_records((enum ref_kind)csv_kind, csv, csv_len, numbers[1], 8192));
}

static void put_number(int64_t n, char after)
{
    csv_len += sprintf((char *)csv + csv_len, "%" PRId64 "%c", n, after);
}

static void records(const char *name, uint32_t kind)
{
    char what[80];
    csv_kind = kind;
    csv_len = 0;
    lend(fill_widest);
    for (size_t i = 0; kind == 2 && i < chart.moves_len; i++)
        put_number(chart.moves[i], i % 11 == 10 ? '\n' : ',');
    for (size_t i = 0; kind == 6 && i < 4096; i++)
        put_number((int64_t)(inputs[i % MOST_SCANS] >> 1), '\n');
    snprintf(what, sizeof what, "records, %s", name);
    row(what, our_records, their_records);
}

/* One line of the growth table: the time of each size over that of the size
 * before it, for both sides. */
static void growth(const char *what, const size_t sizes[3], void (*set)(size_t), call *f, call *g)
{
    struct times t[3];
    for (int i = 0; i < 3; i++) {
        set(sizes[i]);
        t[i] = measure(what, f, g);
    }
    printf("| %-44s | %6zu %6zu %6zu | %5.2f %5.2f | %5.2f %5.2f |\n", what, sizes[0], sizes[1],
           sizes[2], t[1].ours / t[0].ours, t[2].ours / t[1].ours, t[1].theirs / t[0].theirs,
           t[2].theirs / t[1].theirs);
    fflush(stdout);
}

static void set_scans(size_t n)
{
    scans = n;
}

/* The first n moves of the widest tables. */
static void set_moves(size_t n)
{
    chart.moves_len = 11 * n;
    tables = tables_of(&chart);
}

/* The first n rows of each pair table. */
static void set_pairs(size_t n)
{
    chart.timer_pairs_len = chart.output_pairs_len = 2 * n;
    tables = tables_of(&chart);
}

static void show_growth(void)
{
    const size_t long_words[3] = {40000, 80000, 160000}, many[3] = {500, 1000, 2000},
                 lamp_scans[3] = {2000, 4000, 8000}, moves[3] = {128, 256, 512},
                 pairs[3] = {512, 1024, 2048};
    printf("\nHow the time grows when the size doubles and doubles again (2 is linear):\n\n"
           "| %-44s | %-20s | %-11s | %-11s |\n|---|---|---|---|\n", "job", "sizes", "product",
           "C");
    growth("write from words, by words", long_words, take_long, our_write_words,
           their_write_words);
    growth("read, by words", long_words, take_long, our_read, their_read);
    lend(fill_lamp);
    growth("chart run, Lamp, by scans", lamp_scans, set_scans, our_run, their_run);
    lend(fill_widest);
    growth("chart run, widest, by scans", many, set_scans, our_run, their_run);
    lend_program();
    growth("program run, widest, by scans", many, set_scans, our_program, their_program);
    growth("check, widest, by moves (pairs of moves)", moves, set_moves, our_check, their_check);
    growth("write, widest, by moves", moves, set_moves, our_write, their_write);
    lend(fill_widest);
    chart.moves_len = 0;
    growth("write, widest without moves, by pairs", pairs, set_pairs, our_write, their_write);
    growth("check, widest without moves, by pairs", pairs, set_pairs, our_check, their_check);
}

int main(void)
{
    fill_scans(inputs, MOST_SCANS);
    printf("No buffer is cleared before a call; results are written over those of the call before.\n");
    heading("Our time over that of the C reference (which clears only what the tables use):", "C us");
    each_chart("check", our_check, their_check);
    runs("chart run", our_run, their_run, 1000);
    program_runs(100);
    records("moves.csv, widest", 2);
    records("scans.csv, 4,096 scans", 6);
    heading("Over that of hand-made C (the reference looks lines up in tables of strings):", "C us");
    each_chart("write from tables", our_write, their_write);
    each_chart("write from words", our_write_words, their_write_words);
    each_chart("read", our_read, their_read);
    take_long(40000);
    row("write from words, 40,000 words", our_write_words, their_write_words);
    row("read, 40,000 words", our_read, their_read);
    heading("The same over that of the reference itself:", "C us");
    each_chart("write from tables", our_write, their_slow_write);
    row("write from words, corner", our_write_words, their_slow_write_words);
    row("read, corner", our_read, their_slow_read);
    heading("One scan by itself, which checks the tables each time:", "C us");
    runs("chart run", our_run, their_run, 1);
    program_runs(1);
    show_growth();
    return 0;
}
