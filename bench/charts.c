/* The charts, programs and scans that are measured. */
#include "charts.h"

#include <string.h>

enum { CHAINS = 31, DEPTH = 8, FAN = 120 };

static void add_state(struct chart *c, size_t above, size_t first)
{
    c->states[c->states_len++] = (uint16_t)above;
    c->states[c->states_len++] = (uint16_t)first;
}

static int16_t *add_move(struct chart *c, size_t source, size_t target)
{
    int16_t *m = c->moves + c->moves_len;
    c->moves_len += 11;
    m[0] = (int16_t)source;
    m[1] = (int16_t)target;
    return m + 3;
}

static void add_pair(uint16_t *pairs, size_t *len, size_t number, size_t state)
{
    pairs[(*len)++] = (uint16_t)number;
    pairs[(*len)++] = (uint16_t)state;
}

void fill_lamp(struct chart *c)
{
    memset(c, 0, sizeof *c);
    c->name = "Lamp";
    c->step = 100;
    c->inputs = 2;
    c->outputs = 1;
    add_state(c, 0, 1);
    add_state(c, 0, 0);
    add_state(c, 0, 0);
    add_move(c, 1, 2)[0] = 1;
    int16_t *literals = add_move(c, 2, 1);
    literals[0] = 2;
    literals[1] = 101;
    c->presets[c->presets_len++] = 250;
    add_pair(c->timer_pairs, &c->timer_pairs_len, 1, 2);
    add_pair(c->output_pairs, &c->output_pairs_len, 1, 2);
}

/* The frame, the timers and all pair rows. The root is among the first 64
 * states, so that every timer runs at every leaf. */
static void fill_wide(struct chart *c)
{
    c->step = 1;
    c->inputs = 64;
    c->outputs = 64;
    for (size_t t = 0; t < TIMERS; t++)
        c->presets[c->presets_len++] = 86400000;
    for (size_t r = 0; r < PAIRS; r++) {
        add_pair(c->timer_pairs, &c->timer_pairs_len, 1 + r / 64, r % 64);
        add_pair(c->output_pairs, &c->output_pairs_len, 1 + r / 32, 3 * (r % 32));
    }
}

/* State d + 1 levels below the root in chain k. */
static size_t in_chain(size_t k, size_t d)
{
    return 1 + k + d * CHAINS;
}

void fill_widest(struct chart *c)
{
    memset(c, 0, sizeof *c);
    c->name = "widest";
    fill_wide(c);
    add_state(c, 0, 1);
    for (size_t d = 0; d < DEPTH; d++)
        for (size_t k = 0; k < CHAINS; k++)
            add_state(c, d == 0 ? 0 : in_chain(k, d - 1),
                      d == DEPTH - 1 ? 0 : in_chain(k, d + 1));
    while (c->states_len < 2 * STATES)
        add_state(c, 0, 0);
    for (size_t i = 0; i < MOVES; i++) {
        size_t k = i % CHAINS, code = i / CHAINS;
        int16_t *literals = add_move(c, in_chain(k, DEPTH - 1),
                                     in_chain((7 * k + code + 1) % CHAINS, DEPTH - 1));
        for (int j = 0; j < 5; j++)
            literals[j] = (int16_t)(code >> j & 1 ? 60 + j : -(60 + j));
        for (int j = 5; j < 8; j++)
            literals[j] = (int16_t)-(120 + j);
    }
}

void fill_corner(struct chart *c)
{
    memset(c, 0, sizeof *c);
    c->name = "corner";
    fill_wide(c);
    add_state(c, 0, 1);
    for (size_t d = 0; d < DEPTH - 1; d++)
        for (size_t k = 0; k < 2; k++)
            add_state(c, d == 0 ? 0 : 2 * d - 1 + k, 2 * d + 3 + k);
    for (size_t i = 0; i < 2 * FAN + 1; i++)
        add_state(c, 2 * DEPTH - 3 + i % 2, 0);
    for (size_t i = 0; i < MOVES; i++) {
        int16_t *literals = add_move(c, 1 + i % 2, 1);
        for (int j = 0; j < 8; j++)
            literals[j] = (int16_t)((i / 2) >> j & 1 ? 101 + j : -(101 + j));
    }
}

/* In the widest chart each word picks one of the later moves of the active leaf,
 * so that the search for it is long. */
void fill_scans(uint64_t *scans, size_t n)
{
    for (size_t i = 0; i < n; i++)
        scans[i] = (uint64_t)(8 + i * 5 % 8) << 59 | (i % 3 + 1);
}

static uint32_t word(uint32_t operator, uint32_t operand)
{
    return operator * 134217728u + operand;
}

static uint32_t word_in_rung(size_t r, size_t i)
{
    if (i == 0)
        return word(1 + r % 2, 255);
    if (i < 15)
        return word(3 + (r + i) % 2, i % 3 == 0 ? 384 + 64 : (uint32_t)(100 + i));
    switch (i) {
    case 15: return word(5, 0);
    case 16: return word(1, 2001 - r % 2);
    case 17: return word(6, 0);
    case 18: return word(7, 512 + 64);
    default: return word(8 + r % 2, r % 256);
    }
}

void fill_words(uint32_t *words, size_t n)
{
    for (size_t i = 0; i < n; i++)
        words[i] = word_in_rung(i / 20, i % 20);
}

struct ref_tables tables_of(const struct chart *c)
{
    return (struct ref_tables){
        .states = c->states, .states_len = c->states_len,
        .moves = c->moves, .moves_len = c->moves_len,
        .presets = c->presets, .presets_len = c->presets_len,
        .timer_pairs = c->timer_pairs, .timer_pairs_len = c->timer_pairs_len,
        .output_pairs = c->output_pairs, .output_pairs_len = c->output_pairs_len,
        .step = c->step, .inputs = c->inputs, .outputs = c->outputs,
    };
}
