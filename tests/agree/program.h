/* One case of a program over a lent controller: what run_program and
 * scan_program have in common. */
#ifndef PROGRAM_H
#define PROGRAM_H

#include "agree.h"

enum { EXPIRED, GROWN, ON, SET, PROGRAM_EVENTS };

/* What a program did, one list of events a call. */
#define PROGRAM_EVENT_NAMES \
    [EXPIRED] = {"blocks whose Q came on", 0}, \
    [GROWN] = {"blocks whose ET grew with Q off", 0}, \
    [ON] = {"output words other than 0", 0}, \
    [SET] = {"flip-flops that were changed", 0}, \
    [PROGRAM_EVENTS] = {NULL, 0}

/* The two kinds of block differ, so that the lent blocks are no twin; after has
 * the reference's. */
struct program {
    uint32_t step;
    struct list list;
    struct controller first;
    struct ref_block after[MOST_LENT_BLOCKS];
    struct lent words, blocks;
    struct twin flip_flops;
};

void make_program(struct program *p);

/* Flip-flops, blocks and words after a call that was answered with number. */
void expect_program(const struct program *p, uint32_t number);

void show_program(const struct program *p);

/* The events of blocks and flip-flops; those of output words are the caller's. */
void count_program(const struct program *p, struct event *events);

void end_program(struct program *p);

#endif
