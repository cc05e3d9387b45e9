/* The charts, programs and scans that are measured. */
#ifndef CHARTS_H
#define CHARTS_H

#include "reference.h"

enum { STATES = 256, MOVES = 512, TIMERS = 32, PAIRS = 2048, MOST_SCANS = 8192 };

/* A chart with room for the widest tables; `moves` is how many moves it has. */
struct chart {
    const char *name;
    uint32_t step, inputs, outputs;
    uint16_t states[2 * STATES];
    int16_t moves[11 * MOVES];
    uint32_t presets[TIMERS];
    uint16_t timer_pairs[2 * PAIRS], output_pairs[2 * PAIRS];
    size_t states_len, moves_len, presets_len, timer_pairs_len, output_pairs_len;
};

/* Document 01's small chart. */
void fill_lamp(struct chart *c);

/* The widest chart: 31 chains of depth 8 below the root and 7 leaves, 512 moves
 * of five inputs and three timers, 32 timers, 2,048 rows in each pair table.
 * A move fires in every scan of `fill_scans`, most of them late in the table. */
void fill_widest(struct chart *c);

/* Where the check has most to do: two chains of seven states, each with 120
 * leaves at depth 8 below its end, and 256 moves at the top of each with eight
 * timer literals. The sources tell half of the pairs of moves apart, the
 * literals the other half, and every move's timers are looked for at 120 leaves. */
void fill_corner(struct chart *c);

void fill_scans(uint64_t *scans, size_t n);

/* Rungs of twenty lines with brackets and the highest numbers: n words. */
void fill_words(uint32_t *words, size_t n);

struct ref_tables tables_of(const struct chart *c);

#endif
