/* What the files of the driver share. The driver makes random inputs, gives
 * them to the product and to the reference, and compares all that comes back:
 * the answer and every lent byte. */
#ifndef AGREE_H
#define AGREE_H

#include <stdbool.h>
#include <stddef.h>
#include <stdint.h>

#include "reference.h"
#include "splicetuck.h"

/* ---- A call under comparison (compare_*.c, main.c) ---- */

/* Something that a run of the standard size must have met, so that agreement
 * is not found on dull cases only. The last of a call has no name. */
struct event {
    const char *name;
    uint64_t times;
};

/* The numbers that a call can give, as a set: bit n for number n. */
#define GIVES(number) (UINT32_C(1) << (number))
#define GIVES_TABLES UINT32_C(0xFFF) /* accepted and 1 to 11 */

struct call {
    const char *name;
    uint32_t gives;
    uint32_t (*compare)(void); /* one case; the number the reference gave */
    struct event *events;      /* NULL if none */
};

/* ---- Lent slices (lent.c) ---- */

/* A slice as the product gets it: between random bytes that it must leave
 * alone, and whose content it must not take for its own. */
struct lent {
    void *at;       /* NULL at times, when size is 0 */
    size_t size;    /* in bytes */
    uint8_t *all;   /* guard, slice, guard */
    uint8_t *first; /* the same bytes as they were lent */
};

struct lent lend(const void *content, size_t size);
void expect_kept(const char *name, const struct lent *l);
void expect_guards(const char *name, const struct lent *l);
void take_back(struct lent *l);

/* A slice that a call may write: the product's and the reference's, with the
 * same content at first. Content NULL stands for random bytes. */
struct twin {
    struct lent product;
    void *reference;
};

struct twin lend_twice(const void *content, size_t size);
void expect_same(const char *name, const struct twin *w);
void take_both_back(struct twin *w);

struct lent_tables {
    struct lent states, moves, presets, timer_pairs, output_pairs;
};

struct lent_tables lend_tables(const struct ref_tables *t);
void expect_tables_kept(const struct lent_tables *l);
void take_tables_back(struct lent_tables *l);

/* The thirteen arguments that stand for the tables. */
#define TABLES(t, l) \
    (t)->step, (t)->inputs, (t)->outputs, \
    (l).states.at, (t)->states_len, (l).moves.at, (t)->moves_len, \
    (l).presets.at, (t)->presets_len, \
    (l).timer_pairs.at, (t)->timer_pairs_len, \
    (l).output_pairs.at, (t)->output_pairs_len

/* ---- Reports (report.c) ---- */

/* The case that is being compared; a report names it. */
void report_begin(const char *call, uint64_t seed, uint64_t number);

/* Tells a difference. */
void report(const char *format, ...)
    __attribute__((format(printf, 1, 2)));

/* From now on a crash is told as a difference of the case. */
void report_crashes(void);

/* Was there a difference in this case? */
bool differs(void);

void expect_answer(struct splicetuck_answer got, struct ref_answer due);

/* The inputs of the case as C initialisers, if there was a difference. */
void show_number(const char *name, uint64_t number);
void show_u8(const char *name, const uint8_t *at, size_t len);
void show_u16(const char *name, const uint16_t *at, size_t len);
void show_u32(const char *name, const uint32_t *at, size_t len);
void show_u64(const char *name, const uint64_t *at, size_t len);
void show_text(const char *name, const uint8_t *at, size_t len);
void show_tables(const struct ref_tables *t);
void show_blocks(const char *name, const struct ref_block *at, size_t len);

/* ---- Random inputs (random.c) ---- */

/* Every case of every call has random numbers of its own: one case can be made
 * again alone, and the choice of calls does not change it. */
void random_from(uint64_t seed, uint64_t number, const char *call);
uint64_t any64(void);
uint32_t below(uint32_t n); /* 0 to n - 1; n above 0 */
bool once_in(uint32_t n);
void any_bytes(void *at, size_t size);

/* Memory, or the end of the driver. */
void *must_alloc(size_t size);

/* Tables with some rows of room above each limit. */
enum { MORE_ROWS = 4 };
struct draft {
    struct ref_tables t; /* its slices are those below */
    uint16_t states[2 * (256 + MORE_ROWS)];
    int16_t moves[11 * (512 + MORE_ROWS)];
    uint32_t presets[32 + MORE_ROWS];
    uint16_t timer_pairs[2 * (2048 + MORE_ROWS)];
    uint16_t output_pairs[2 * (2048 + MORE_ROWS)];
};

/* Tables with rules broken once in `broken` times, else as they are accepted.
 * The draft is valid until the next call. */
const struct draft *any_tables(uint32_t broken);

/* Tables in which OVERLAP is frequent and most other rules hold; valid as
 * long. */
const struct draft *any_overlaps(void);

unsigned depth_of(const struct draft *d, unsigned s);
unsigned flip_flops_of(const struct draft *d);

/* A list of instruction words; `words` grows. */
struct list {
    uint32_t *words;
    size_t len, room;
};

/* A list of a chart or of the grammar, damaged once in `damaged` times. */
struct list any_words(uint32_t damaged);

/* The same as a text; damage is also done to its lines and bytes. */
struct text {
    uint8_t *bytes;
    size_t len, room;
};

struct text any_text(uint32_t damaged);

/* Puts count bytes in the place of `gone` bytes at `at`. */
void splice_bytes(struct text *x, size_t at, size_t gone, const void *bytes,
                  size_t count);

/* ---- Random files of records (files.c) ---- */

/* One of the seven files, damaged once in `damaged` times. */
struct text any_file(enum ref_kind kind, uint32_t damaged);

/* How long a result slice is lent: exactly as needed, too short or too long. */
size_t any_room(uint64_t needed);

/* A scan step, once in a while beyond its limits. */
uint32_t any_step(void);

/* How many scans, the input words, and how long a result slice is lent. */
enum { MOST_SCANS = 64 };
size_t any_inputs(uint64_t inputs[MOST_SCANS]);
size_t any_result_length(size_t scans);

/* A chart state for tables that may be refused, valid more often than not. */
enum { MOST_STATE = 256 + 32 + 4 };
size_t any_state(const struct draft *d, uint32_t state[MOST_STATE]);

/* A controller for words that may be refused, valid more often than not. */
enum { MOST_LENT_FLIP_FLOPS = 256 + 4, MOST_LENT_BLOCKS = 32 + 4 };
struct controller {
    uint8_t flip_flops[MOST_LENT_FLIP_FLOPS];
    size_t flip_flops_len;
    struct ref_block blocks[MOST_LENT_BLOCKS];
    size_t blocks_len;
};

void any_controller(const struct list *l, uint32_t step, struct controller *k);

#endif
