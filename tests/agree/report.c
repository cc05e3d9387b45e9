/* Reports: what differs, and the inputs in a form that can be put into a C
 * program as it is. */
#include "agree.h"

#include <inttypes.h>
#include <signal.h>
#include <stdarg.h>
#include <stdio.h>
#include <stdlib.h>

static struct {
    const char *call;
    uint64_t seed, number;
    bool differs;
} now;

void report_begin(const char *call, uint64_t seed, uint64_t number)
{
    now.call = call;
    now.seed = seed;
    now.number = number;
    now.differs = false;
}

void report(const char *format, ...)
{
    if (!now.differs)
        printf("\n/* DIFFERENCE: splicetuck_%s, seed %" PRIu64 ", case %" PRIu64
               " */\n", now.call, now.seed, now.number);
    now.differs = true;
    va_list values;
    va_start(values, format);
    printf("/* ");
    vprintf(format, values);
    printf(" */\n");
    va_end(values);
}

/* The program ends here in any case, so that printing is worth the risk. */
static void crashed(int number)
{
    report("the call crashed with signal %d", number);
    fflush(stdout);
    _Exit(1);
}

void report_crashes(void)
{
    signal(SIGSEGV, crashed);
    signal(SIGILL, crashed);
    signal(SIGFPE, crashed);
    signal(SIGABRT, crashed);
}

bool differs(void)
{
    return now.differs;
}

void expect_answer(struct splicetuck_answer got, struct ref_answer due)
{
    if (got.number != due.number || got.place != due.place
        || got.length != due.length)
        report("product {number %" PRIu32 ", place %" PRIu64 ", length %" PRIu64
               "}, reference {number %" PRIu32 ", place %" PRIu64 ", length %"
               PRIu64 "}", got.number, got.place, got.length, due.number,
               due.place, due.length);
}

void show_number(const char *name, uint64_t number)
{
    if (now.differs)
        printf("size_t %s = %" PRIu64 ";\n", name, number);
}

/* How many numbers stand on a line: whole rows, and of a move one. */
enum { A_LINE = 16, A_MOVE = 11 };

/* The number at index i of the slice, which a show function knows the type of.
 * An array of C11 is not empty, so one of length 0 is shown with a 0. */
#define SHOW(type, name, at, len, format, line)                               \
    do {                                                                      \
        if (!now.differs)                                                     \
            return;                                                           \
        printf(type " %s[] = {", name);                                       \
        for (size_t i = 0; i < (len); i++)                                    \
            printf("%s%" format ",", i % (line) == 0 ? "\n    " : " ",        \
                   (at)[i]);                                                  \
        printf("%s\n};\nsize_t %s_len = %zu;\n", (len) == 0 ? " 0" : "", name, \
               (size_t)(len));                                                \
    } while (0)

void show_u8(const char *name, const uint8_t *at, size_t len)
{
    SHOW("uint8_t", name, at, len, PRIu8, A_LINE);
}

void show_u16(const char *name, const uint16_t *at, size_t len)
{
    SHOW("uint16_t", name, at, len, PRIu16, A_LINE);
}

static void show_i16(const char *name, const int16_t *at, size_t len)
{
    SHOW("int16_t", name, at, len, PRId16, A_MOVE);
}

void show_u32(const char *name, const uint32_t *at, size_t len)
{
    SHOW("uint32_t", name, at, len, PRIu32 "u", A_LINE);
}

void show_u64(const char *name, const uint64_t *at, size_t len)
{
    SHOW("uint64_t", name, at, len, PRIu64 "u", A_LINE);
}

/* A string literal a line. Its NUL is one byte more than text_len. */
void show_text(const char *name, const uint8_t *at, size_t len)
{
    if (!now.differs)
        return;
    printf("uint8_t %s[] =\n    \"", name);
    for (size_t i = 0; i < len; i++) {
        if (at[i] == '\n')
            printf(i + 1 < len ? "\\n\"\n    \"" : "\\n");
        else if (at[i] == '"' || at[i] == '\\')
            printf("\\%c", at[i]);
        else if (at[i] >= ' ' && at[i] <= '~')
            putchar(at[i]);
        else
            printf("\\%03o", (unsigned)at[i]);
    }
    printf("\";\nsize_t %s_len = %zu;\n", name, len);
}

void show_tables(const struct ref_tables *t)
{
    if (!now.differs)
        return;
    printf("uint32_t step = %" PRIu32 "u, inputs = %" PRIu32 "u, outputs = %"
           PRIu32 "u;\n", t->step, t->inputs, t->outputs);
    show_u16("states", t->states, t->states_len);
    show_i16("moves", t->moves, t->moves_len);
    show_u32("presets", t->presets, t->presets_len);
    show_u16("timer_pairs", t->timer_pairs, t->timer_pairs_len);
    show_u16("output_pairs", t->output_pairs, t->output_pairs_len);
}

void show_blocks(const char *name, const struct ref_block *at, size_t len)
{
    if (!now.differs)
        return;
    printf("struct splicetuck_block %s[] = {\n", name);
    for (size_t i = 0; i < len; i++)
        printf("    {.on = %d, .pt = %" PRIu32 "u, .et = %" PRIu32
               "u, .q = %d, .last = %d},\n", at[i].in, at[i].pt, at[i].et,
               at[i].q, at[i].last_in);
    printf("%s};\nsize_t %s_len = %zu;\n", len == 0 ? "    {.on = 0},\n" : "",
           name, len);
}
