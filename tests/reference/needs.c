/* What the program prints with --needs. Every set is found by looking for each
 * name in the eight places, in the order in which names are written. */
#include "files.h"

#include <inttypes.h>
#include <stdarg.h>
#include <stdio.h>
#include <string.h>

struct page {
    uint8_t *out;
    size_t len;
};

static void put(struct page *p, const char *format, ...)
    __attribute__((format(printf, 2, 3)));

static void put(struct page *p, const char *format, ...)
{
    char some[64];
    va_list values;
    va_start(values, format);
    int len = vsnprintf(some, sizeof some, format, values);
    va_end(values);
    memcpy(p->out + p->len, some, (size_t)len);
    p->len += (size_t)len;
}

static bool has(const int16_t *row, int literal)
{
    for (int i = MOVE_ROW - LITERALS; i < MOVE_ROW; i++)
        if (row[i] == literal)
            return true;
    return false;
}

/* What a or b needs on (sign 1) or off (sign -1): "the names that things have in
 * the written text, inputs first and rising, then timers rising, one space
 * between two names, and - for the empty set". */
static void put_set(struct page *p, const int16_t *a, const int16_t *b,
                    int sign)
{
    const char *gap = "";
    for (int i = 1; i <= MOST_INPUTS; i++)
        if (has(a, sign * i) || has(b, sign * i)) {
            put(p, "%s%%IX%d", gap, i);
            gap = " ";
        }
    for (int n = 1; n <= MOST_TIMERS; n++)
        if (has(a, sign * (100 + n)) || has(b, sign * (100 + n))) {
            put(p, "%sT%d.Q", gap, n);
            gap = " ";
        }
    if (*gap == '\0')
        put(p, "-");
}

static void put_sets(struct page *p, const int16_t *a, const int16_t *b)
{
    put_set(p, a, b, 1);
    put(p, ",");
    put_set(p, a, b, -1);
    put(p, "\n");
}

/* "its source and every state above it up to the root", source first */
static void put_path(struct page *p, const struct ref_tables *t, int s)
{
    put(p, "%d", s);
    while (s != 0) {
        s = t->states[s * STATE_ROW];
        put(p, " %d", s);
    }
}

static void put_table(struct page *p, const struct ref_tables *t)
{
    put(p, "move,source and above,target,needs on,needs off\n");
    for (size_t m = 0; m < t->moves_len / MOVE_ROW; m++) {
        const int16_t *row = t->moves + m * MOVE_ROW;
        put(p, "%zu,", m);
        put_path(p, t, row[0]);
        put(p, ",%d,", row[1]);
        put_sets(p, row, row);
    }
}

static struct ref_answer put_page(struct page *p, const struct ref_tables *t)
{
    struct ref_witness w = ref_check_witness(t);
    struct ref_answer answer = {.number = w.number, .place = w.place};
    if (w.number == REF_ACCEPTED || w.number > REF_LITERAL)
        put_table(p, t);
    if (w.number == REF_OVERLAP) {
        put(p, "OVERLAP %" PRIu64 " %" PRIu64 ",%" PRIu64 ",-,", w.earlier,
            w.place, w.state);
        put_sets(p, t->moves + w.earlier * MOVE_ROW,
                 t->moves + w.place * MOVE_ROW);
    }
    if (w.number == REF_ACCEPTED)
        put(p, "ACCEPTED\n");
    return answer;
}

struct ref_answer ref_needs(const uint8_t *const files[7],
                            const size_t lens[7],
                            uint8_t *out, size_t *out_len)
{
    struct page p = {.out = out, .len = 0};
    struct ref_contents all;
    struct ref_answer answer = ref_read_files(files, lens, &all);
    if (answer.number == REF_ACCEPTED) {
        struct ref_tables t = ref_tables_of(&all);
        answer = put_page(&p, &t);
    }
    if (answer.number == REF_ACCEPTED)
        answer.length = p.len;
    else
        p.len += ref_print_refusal(answer, out + p.len);
    *out_len = p.len;
    ref_free_files(&all);
    return answer;
}
