/* The written text: from tables to words, and from words to bytes. */
#include "tables.h"
#include "words.h"

#include <stdio.h>
#include <stdlib.h>
#include <string.h>

/* A growing list of words. */
struct list {
    uint32_t *words;
    size_t n, room;
};

static void add(struct list *l, enum operator operator, uint32_t operand)
{
    if (l->n == l->room) {
        l->room = l->room == 0 ? 256 : l->room * 2;
        l->words = realloc(l->words, l->room * sizeof *l->words);
        if (l->words == NULL)
            abort();
    }
    l->words[l->n++] = WORD(operator, operand);
}

/* One test of a conjunction: "LD or LDN, then AND or ANDN". */
static void add_test(struct list *l, bool *first, bool on, uint32_t operand)
{
    if (*first)
        add(l, on ? OP_LD : OP_LDN, operand);
    else
        add(l, on ? OP_AND : OP_ANDN, operand);
    *first = false;
}

/* The super-states above s and s itself, from the root down. */
static size_t path_to(const struct ref_chart *c, uint16_t s,
                      uint16_t path[MOST_DEPTH + 1])
{
    size_t n = c->depth[s] + 1u;
    for (size_t i = n; i-- > 0; s = c->super[s])
        path[i] = s;
    return n;
}

/* "A state is the AND of its path's code bits, root down, low bit first" */
static void add_state(struct list *l, const struct ref_chart *c, uint16_t s,
                      bool *first)
{
    uint16_t path[MOST_DEPTH + 1];
    size_t n = path_to(c, s, path);
    for (size_t i = 1; i < n; i++)
        for (unsigned bit = 0; bit < c->width[path[i - 1]]; bit++)
            add_test(l, first, c->code[path[i]] >> bit & 1,
                     BASE_MX + c->first[path[i - 1]] + bit);
}

/* "the OR of its pairs' states": those pairs whose first number is `of`. */
static void add_or(struct list *l, const struct ref_chart *c,
                   const uint16_t *pairs, size_t len, unsigned of)
{
    bool any = false;
    for (size_t i = 0; i < len; i += PAIR_ROW) {
        if (pairs[i] != of)
            continue;
        bool first = true;
        if (any)
            add(l, OP_OR, NO_OPERAND);
        add_state(l, c, pairs[i + 1], &first);
        if (first)
            add(l, OP_LD, OPERAND_TRUE);
        if (any)
            add(l, OP_CLOSE, NO_OPERAND);
        any = true;
    }
    if (!any)
        add(l, OP_LD, OPERAND_FALSE);
}

static void add_timers(struct list *l, const struct ref_tables *t,
                       const struct ref_chart *c)
{
    for (unsigned n = 1; n <= c->timers; n++) {
        add_or(l, c, t->timer_pairs, t->timer_pairs_len, n);
        add(l, OP_ST, BASE_IN + n);
        add(l, OP_LD_TIME, c->preset[n - 1]);
        add(l, OP_ST, BASE_PT + n);
        add(l, OP_CAL, BASE_T + n);
    }
}

/* S or R on the working copies of the group of super-state s: "the working
 * copy of %MXb is %MX(B + b)". */
static void add_group(struct list *l, const struct ref_chart *c, uint16_t s,
                      uint16_t code)
{
    for (unsigned bit = 0; bit < c->width[s]; bit++)
        add(l, code >> bit & 1 ? OP_S : OP_R,
            BASE_MX + (uint32_t)c->flip_flops + c->first[s] + bit);
}

/* "each flip-flop the move sets, groups from the root down, low bit first" */
static void add_sets(struct list *l, const struct ref_chart *c,
                     const struct move *move)
{
    uint16_t path[MOST_DEPTH + 1];
    size_t n = path_to(c, move->target, path);
    for (size_t i = 1; i < n; i++)
        add_group(l, c, path[i - 1], c->code[path[i]]);
    if (move->history)
        return;
    for (uint16_t s = move->target; c->subs[s] != 0; s = c->initial[s])
        add_group(l, c, s, 0);
}

static void add_move(struct list *l, const struct ref_chart *c,
                     const struct move *move, const int16_t *literals)
{
    size_t begin = l->n;
    bool first = true;
    add_state(l, c, move->source, &first);
    for (size_t i = 0; i < LITERALS && literals[i] != 0; i++) {
        uint32_t size = (uint32_t)abs(literals[i]);
        add_test(l, &first, literals[i] > 0,
                 size <= MOST_IX ? BASE_IX + size : BASE_Q + (size - 100));
    }
    if (first)
        add(l, OP_LD, OPERAND_TRUE);
    size_t body = l->n;
    add_sets(l, c, move);
    /* "A rung that would set no flip-flop is left out." */
    if (l->n == body)
        l->n = begin;
}

static struct list words_of(const struct ref_tables *t,
                            const struct ref_chart *c)
{
    struct list l = {.words = NULL};
    uint32_t b = (uint32_t)c->flip_flops;
    add_timers(&l, t, c);
    for (size_t m = 0; m < c->moves; m++)
        add_move(&l, c, &c->move[m], t->moves + m * MOVE_ROW + 3);
    for (uint32_t i = 0; i < b; i++) {
        add(&l, OP_LD, BASE_MX + b + i);
        add(&l, OP_ST, BASE_MX + i);
    }
    for (unsigned o = 1; o <= t->outputs; o++) {
        add_or(&l, c, t->output_pairs, t->output_pairs_len, o);
        add(&l, OP_ST, BASE_QX + o);
    }
    return l;
}

/* Where bytes go; with out NULL they are only counted. */
struct sink {
    uint8_t *out;
    size_t n;
};

static void put(struct sink *k, const void *bytes, size_t n)
{
    if (k->out != NULL)
        memcpy(k->out + k->n, bytes, n);
    k->n += n;
}

static void put_line(struct sink *k, const char *line)
{
    put(k, line, strlen(line));
    put(k, "\n", 1);
}

static void put_text(struct sink *k, const uint32_t *words, size_t n,
                     uint32_t blocks)
{
    put_line(k, "PROGRAM CHART");
    if (blocks > 0) {
        put_line(k, "VAR");
        for (uint32_t i = 1; i <= blocks; i++) {
            char line[32];
            snprintf(line, sizeof line, "T%u : TON;", (unsigned)i);
            put_line(k, line);
        }
        put_line(k, "END_VAR");
    }
    for (size_t i = 0; i < n; i++) {
        uint8_t line[32];
        put(k, line, ref_line_of_word(words[i], line));
    }
    put_line(k, "END_PROGRAM");
}

static struct ref_answer write_text(const uint32_t *words, size_t n,
                                    uint32_t blocks, uint8_t *out,
                                    size_t out_len)
{
    struct sink counted = {.out = NULL}, written = {.out = out};
    put_text(&counted, words, n, blocks);
    if (counted.n > out_len)
        return ref_refused(REF_ROOM, counted.n);
    put_text(&written, words, n, blocks);
    return ref_accepted(written.n);
}

struct ref_answer ref_write_tables(const struct ref_tables *tables,
                                   uint8_t *out, size_t out_len)
{
    struct ref_chart c;
    struct ref_answer answer = ref_accept(tables, &c);
    if (answer.number != REF_ACCEPTED)
        return answer;
    struct list l = words_of(tables, &c);
    answer = write_text(l.words, l.n, (uint32_t)c.timers, out, out_len);
    free(l.words);
    return answer;
}

struct ref_answer ref_write_words(const uint32_t *words, size_t n,
                                  uint8_t *out, size_t out_len)
{
    struct ref_prefix p;
    struct ref_answer answer = ref_read_words(words, n, &p);
    if (answer.number != REF_ACCEPTED)
        return answer;
    return write_text(words, n, p.done, out, out_len);
}
