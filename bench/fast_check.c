/* The reference's check, which clears only what tables of these sizes use: for a
 * small chart most of its time was the clearing of 256 states and 512 moves. */
#include "tables.h"

#include <string.h>

static size_t rows(size_t len, size_t row, size_t most)
{
    return len / row < most ? len / row : most;
}

static void clear(const struct ref_tables *t, struct ref_chart *c)
{
    size_t states = rows(t->states_len, STATE_ROW, MOST_STATES);
    size_t moves = rows(t->moves_len, MOVE_ROW, MOST_MOVES);
    for (size_t s = 0; s < states; s++) {
        c->super[s] = 0;
        c->depth[s] = 0;
        c->subs[s] = 0;
        c->runs[s] = 0;
        c->shows[s] = 0;
    }
    for (size_t m = 0; m < moves; m++)
        c->move[m].asks = (struct literals){0, 0, 0, 0};
    c->supers = c->flip_flops = 0;
}

#define memset(c, zero, size) clear(t, c)
#include "check.c"
