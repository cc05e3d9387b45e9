/* Reads a text: a forward automaton over its lines. Around the instructions
 * stand PROGRAM CHART, the VAR part and END_PROGRAM. */
#include "tables.h"
#include "words.h"

#include <stdio.h>
#include <string.h>

enum part {
    AT_PROGRAM, /* PROGRAM CHART is due */
    AT_VAR,     /* VAR, or the first rung, or END_PROGRAM */
    IN_VAR,     /* blocks are being declared */
    IN_RUNGS,   /* the instructions */
    AT_END      /* END_PROGRAM stood: no line may follow */
};

struct text {
    enum part part;
    struct ref_prefix rungs;
    uint32_t *out; /* NULL while the words are only counted */
    size_t words;
};

static bool line_is(const uint8_t *line, size_t n, const char *what)
{
    return n == strlen(what) && memcmp(line, what, n) == 0;
}

/* "a line "T1 : TON;" each", from T1 "to at most T32 in rising order". The VAR
 * part stands only "if there are timers", so END_VAR needs one before it. */
static bool declaration(struct text *t, const uint8_t *line, size_t n)
{
    char due[sizeof "T32 : TON;"];
    if (t->rungs.declared > 0 && line_is(line, n, "END_VAR")) {
        t->part = IN_RUNGS;
        return true;
    }
    if (t->rungs.declared == MOST_BLOCKS)
        return false;
    snprintf(due, sizeof due, "T%u : TON;",
             (unsigned)(t->rungs.declared % MOST_BLOCKS + 1));
    if (!line_is(line, n, due))
        return false;
    t->rungs.declared++;
    return true;
}

static bool instruction(struct text *t, const uint8_t *line, size_t n)
{
    uint32_t word;
    if (line_is(line, n, "END_PROGRAM")) {
        t->part = AT_END;
        return ref_may_end(&t->rungs);
    }
    if (!ref_word_of_line(line, n, &word) || !ref_follow(&t->rungs, word))
        return false;
    t->part = IN_RUNGS;
    if (t->out != NULL)
        t->out[t->words] = word;
    t->words++;
    return true;
}

/* False when no accepted text has this line after those before it. */
static bool follow_line(struct text *t, const uint8_t *line, size_t n)
{
    switch (t->part) {
    case AT_PROGRAM:
        t->part = AT_VAR;
        return line_is(line, n, "PROGRAM CHART");
    case AT_VAR:
        if (line_is(line, n, "VAR")) {
            t->part = IN_VAR;
            return true;
        }
        return instruction(t, line, n);
    case IN_VAR:
        return declaration(t, line, n);
    case IN_RUNGS:
        return instruction(t, line, n);
    default:
        return false;
    }
}

static struct ref_answer read_lines(struct text *t, const uint8_t *bytes,
                                    size_t n)
{
    for (size_t begin = 0; begin < n;) {
        const uint8_t *line = bytes + begin;
        const uint8_t *end = memchr(line, '\n', n - begin);
        /* "A last line without LF is one that no text has." */
        if (end == NULL || !follow_line(t, line, (size_t)(end - line)))
            return ref_refused(REF_TEXT, begin);
        begin += (size_t)(end - line) + 1;
    }
    if (t->part != AT_END)
        return ref_refused(REF_TEXT, n); /* "if only lines ... are missing" */
    return ref_accepted(t->words);
}

/* In a text the VAR part settles how many blocks are declared. */
static struct text start(uint32_t *out)
{
    return (struct text){.part = AT_PROGRAM,
                         .rungs = {.at = AT_RUNG, .known = true},
                         .out = out};
}

struct ref_answer ref_read_text(const uint8_t *text, size_t n,
                                uint32_t *out, size_t out_len)
{
    struct text counted = start(NULL), written = start(out);
    struct ref_answer answer = read_lines(&counted, text, n);
    if (answer.number != REF_ACCEPTED)
        return answer;
    if (counted.words > out_len)
        return ref_refused(REF_ROOM, counted.words);
    return read_lines(&written, text, n);
}
