/* splicetuck_read_records against the reference. */
#include "agree.h"

#include <stdlib.h>
#include <string.h>

enum { KINDS = 7, QUOTED = KINDS, CRLF, OPEN_END, MINUS, MOST, ONE_MORE, NONE };
static struct event events[] = {
    [REF_FRAME] = {"frame.csv accepted", 0},
    [REF_STATES] = {"states.csv accepted", 0},
    [REF_MOVES] = {"moves.csv accepted", 0},
    [REF_PRESETS] = {"presets.csv accepted", 0},
    [REF_TIMERPAIRS] = {"timerpairs.csv accepted", 0},
    [REF_OUTPUTPAIRS] = {"outputpairs.csv accepted", 0},
    [REF_SCANWORDS] = {"scans.csv accepted", 0},
    [QUOTED] = {"accepted with quotes", 0},
    [CRLF] = {"accepted with CR LF", 0},
    [OPEN_END] = {"accepted without a last LF", 0},
    [MINUS] = {"accepted with a minus", 0},
    [MOST] = {"4,096 scans accepted", 0},
    [ONE_MORE] = {"FIELD at 4,096", 0},
    [NONE] = {"a kind of no file", 0},
    {NULL, 0}
};

/* The number at index i of the reference's array, as the product stores it:
 * 64 bits, of a negative number the two's complement. */
static uint64_t wide(enum ref_kind kind, const void *at, size_t i)
{
    switch (kind) {
    case REF_FRAME:
    case REF_PRESETS: return ((const uint32_t *)at)[i];
    case REF_STATES:
    case REF_TIMERPAIRS:
    case REF_OUTPUTPAIRS: return ((const uint16_t *)at)[i];
    case REF_MOVES: return (uint64_t)(int64_t)((const int16_t *)at)[i];
    default: return ((const uint64_t *)at)[i];
    }
}

/* What is due: the answer, and the numbers over what `out` holds. A kind of no
 * file is the product's own matter: SIZE at 0, see splicetuck.h. */
static struct ref_answer read_due(uint32_t kind, const struct text *x,
                                  uint64_t *out, size_t out_len)
{
    if (kind >= KINDS)
        return (struct ref_answer){.number = REF_SIZE};
    void *own = must_alloc(out_len * sizeof(uint64_t));
    struct ref_answer due = ref_read_records((enum ref_kind)kind, x->bytes,
                                             x->len, own, out_len);
    for (size_t i = 0; i < due.length; i++)
        out[i] = wide((enum ref_kind)kind, own, i);
    free(own);
    return due;
}

static uint64_t numbers_needed(uint32_t kind, const struct text *x)
{
    struct ref_answer a = {.number = REF_SIZE};
    if (kind < KINDS)
        a = ref_read_records((enum ref_kind)kind, x->bytes, x->len, NULL, 0);
    return a.number == REF_ROOM ? a.place : below(40);
}

static void count_events(uint32_t kind, const struct text *x,
                         struct ref_answer due)
{
    events[NONE].times += kind >= KINDS;
    events[ONE_MORE].times += due.number == REF_FIELD && due.place == 4096;
    if (due.number != REF_ACCEPTED)
        return;
    events[kind].times++;
    events[MOST].times += kind == REF_SCANWORDS && due.length == 4096;
    if (x->len == 0)
        return;
    events[QUOTED].times += memchr(x->bytes, '"', x->len) != NULL;
    events[CRLF].times += memchr(x->bytes, '\r', x->len) != NULL;
    events[OPEN_END].times += x->bytes[x->len - 1] != '\n';
    events[MINUS].times += memchr(x->bytes, '-', x->len) != NULL;
}

static uint32_t compare(void)
{
    uint32_t kind = below(KINDS);
    struct text x = any_file((enum ref_kind)kind, 2);
    if (once_in(50))
        kind = once_in(2) ? KINDS : (uint32_t)any64() | KINDS;
    size_t out_len = any_room(numbers_needed(kind, &x));
    struct lent bytes = lend(x.bytes, x.len);
    struct twin out = lend_twice(NULL, out_len * sizeof(uint64_t));
    struct ref_answer due = read_due(kind, &x, out.reference, out_len);
    expect_answer(splicetuck_read_records(kind, bytes.at, x.len, out.product.at,
                                          out_len), due);
    expect_same("out", &out);
    expect_kept("bytes", &bytes);
    count_events(kind, &x, due);
    show_number("kind", kind);
    show_text("bytes", x.bytes, x.len);
    show_number("out_len", out_len);
    take_both_back(&out);
    take_back(&bytes);
    free(x.bytes);
    return due.number;
}

const struct call compare_read_records = {
    .name = "read_records",
    .gives = GIVES(REF_ACCEPTED) | GIVES(REF_SIZE) | GIVES(REF_ROOM)
        | GIVES(REF_FIELD),
    .compare = compare,
    .events = events
};
