/* The chart's limits, and the facts about an accepted chart that the other
 * files share. Not public. */
#ifndef TABLES_H
#define TABLES_H

#include <stdbool.h>

#include "reference.h"

/* "The limits belong to the chart" */
enum {
    MOST_STATES = 256,
    MOST_DEPTH = 8, /* "root is 0" */
    MOST_MOVES = 512,
    MOST_INPUTS = 64,
    MOST_OUTPUTS = 64,
    MOST_TIMERS = 32,
    MOST_FLIP_FLOPS = 128,
    MOST_PAIRS = 2048,
    MOST_STEP = 1000,
    MOST_TIME = 86400000
};

/* Numbers a row. */
enum { STATE_ROW = 2, MOVE_ROW = 11, PAIR_ROW = 2, LITERALS = 8 };

/* The literals of a move as sets: input i or timer n is the bit of weight
 * 2^(i-1) or 2^(n-1). */
struct literals {
    uint64_t inputs_on, inputs_off;
    uint32_t timers_on, timers_off;
};

struct move {
    uint16_t source, target;
    bool history; /* mark 1 */
    struct literals asks;
};

/* What the checks learn on their way. Each part is right as soon as the check
 * that fills it has passed. */
struct ref_chart {
    size_t states, moves, timers;
    uint32_t step;

    uint16_t super[MOST_STATES];
    uint16_t initial[MOST_STATES];
    uint8_t depth[MOST_STATES];
    uint16_t subs[MOST_STATES]; /* how many sub-states; 0 at a leaf */

    uint32_t preset[MOST_TIMERS];
    uint32_t top[MOST_TIMERS]; /* N scan steps, in ms */

    /* Timers that run, and outputs that are on, when this state is the last of
     * a path: its own pairs and those of all states above it. */
    uint32_t runs[MOST_STATES];
    uint64_t shows[MOST_STATES];

    struct move move[MOST_MOVES];

    uint16_t code[MOST_STATES];   /* in the group of its super-state */
    uint8_t width[MOST_STATES];   /* bits of a super-state's group */
    uint16_t first[MOST_STATES];  /* the group's lowest flip-flop */
    uint16_t slot[MOST_STATES];   /* where a chart state has its code */
    uint16_t listed[MOST_STATES]; /* where its sub-states begin in by_code */
    uint16_t by_code[MOST_STATES];
    size_t supers;                /* how many super-states */
    size_t flip_flops;            /* B */
};

/* Checks 1 to 11 and, when they pass, all facts of the chart. */
struct ref_answer ref_accept(const struct ref_tables *t, struct ref_chart *c);

/* Is `above` the state s or one of its super-states? */
bool ref_at_or_above(const struct ref_chart *c, uint16_t above, uint16_t s);

/* Short forms of the answers. */
struct ref_answer ref_refused(enum ref_number number, uint64_t place);
struct ref_answer ref_accepted(uint64_t length);

#endif
