/* The check with a witness. Of two moves a setting is looked for literal by
 * literal, from the rows as they are lent: check.c's sets have no part in it, so
 * the two must come to the same overlap by different ways. */
#include "tables.h"

#include <stdlib.h>

/* "some setting of inputs and of timers, taken as free": each begins as free
 * and is put on or off by the literals, whose sizes are the indices. */
enum want { FREE = 0, ON, OFF };
enum { FIRST_TIMER = 101, SIZES = FIRST_TIMER + MOST_TIMERS };

/* Puts what a move asks into the setting; false when it was put the other way
 * before. LITERAL has passed, so every size is one of an input or a timer. */
static bool put(const int16_t *row, enum want setting[SIZES])
{
    for (int i = MOVE_ROW - LITERALS; i < MOVE_ROW && row[i] != 0; i++) {
        enum want want = row[i] > 0 ? ON : OFF;
        enum want *thing = &setting[abs(row[i])];
        if (*thing != FREE && *thing != want)
            return false;
        *thing = want;
    }
    return true;
}

/* Is `above` met on the way from s up to the root? */
static bool is_on_path(const struct ref_tables *t, int above, int s)
{
    while (s != above && s != 0)
        s = t->states[s * STATE_ROW];
    return s == above;
}

/* The bit of each thing that the setting has as wanted, from the first of its
 * kind on. */
static uint64_t word_of(const enum want *things, int count, enum want wanted)
{
    uint64_t word = 0, weight = 1;
    for (int i = 0; i < count; i++, weight *= 2)
        if (things[i] == wanted)
            word += weight;
    return word;
}

/* "Two moves overlap when one source is at or above the other and some setting
 * ... makes both enabled." Fills in what shows it. */
static bool overlap(const struct ref_tables *t, size_t earlier, size_t later,
                    struct ref_witness *w)
{
    const int16_t *a = t->moves + earlier * MOVE_ROW;
    const int16_t *b = t->moves + later * MOVE_ROW;
    enum want setting[SIZES] = {FREE};
    bool b_below = is_on_path(t, a[0], b[0]);
    if (!b_below && !is_on_path(t, b[0], a[0]))
        return false;
    if (!put(a, setting) || !put(b, setting))
        return false;
    *w = (struct ref_witness){
        .number = REF_OVERLAP, .place = later, .earlier = earlier,
        .state = (uint64_t)(b_below ? b[0] : a[0]),
        .inputs_on = word_of(setting + 1, MOST_INPUTS, ON),
        .inputs_off = word_of(setting + 1, MOST_INPUTS, OFF),
        .timers_on = word_of(setting + FIRST_TIMER, MOST_TIMERS, ON),
        .timers_off = word_of(setting + FIRST_TIMER, MOST_TIMERS, OFF)};
    return true;
}

struct ref_witness ref_check_witness(const struct ref_tables *t)
{
    struct ref_answer answer = ref_check(t);
    struct ref_witness w = {.number = answer.number, .place = answer.place};
    if (answer.number != REF_ACCEPTED && answer.number < REF_OVERLAP)
        return w; /* the rows may be of any content */
    for (size_t later = 1; later < t->moves_len / MOVE_ROW; later++)
        for (size_t earlier = 0; earlier < later; earlier++)
            if (overlap(t, earlier, later, &w))
                return w;
    return w;
}
