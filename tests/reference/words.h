/* Instruction words: what they say and which may follow which. Not public. */
#ifndef WORDS_H
#define WORDS_H

#include <stdbool.h>

#include "reference.h"

/* "operator number times 134,217,728 plus operand" */
#define WORD(operator, operand) \
    ((uint32_t)(operator) * UINT32_C(134217728) + (uint32_t)(operand))

enum operator {
    OP_LD = 1, OP_LDN, OP_AND, OP_ANDN, OP_OR, OP_CLOSE, OP_ST, OP_S, OP_R,
    OP_CAL, OP_LD_TIME
};

/* An operand is its number plus the base of its kind. */
enum {
    BASE_MX = 0, BASE_IX = 384, BASE_QX = 512, BASE_Q = 768, BASE_IN = 1024,
    BASE_PT = 1280, BASE_T = 1536, OPERAND_FALSE = 2000, OPERAND_TRUE = 2001,
    NO_OPERAND = 0
};

enum { MOST_MX = 255, MOST_IX = 64, MOST_QX = 64, MOST_BLOCKS = 32 };

static inline uint32_t ref_operator(uint32_t word)
{
    return word / 134217728;
}

static inline uint32_t ref_operand(uint32_t word)
{
    return word % 134217728;
}

/* Is the operand base + n for an n from least to most? */
static inline bool ref_within(uint32_t operand, uint32_t base, uint32_t least,
                              uint32_t most)
{
    return operand >= base + least && operand <= base + most;
}

/* Where in the grammar a list of words, or the instruction lines of a text,
 * stands so far. */
enum stand {
    AT_RUNG,          /* a rung may begin; a list may end here */
    AT_STORES,        /* after a store: another, a new rung, or the end */
    IN_BODY,          /* after LD or LDN of a body, outside brackets */
    AT_BRACKET,       /* right after OR( */
    IN_BRACKET,       /* after LD or LDN within a bracket */
    AT_TIME,          /* after ST Tn.IN */
    AT_PT,            /* after LD of a time */
    AT_CAL            /* after ST Tn.PT */
};

struct ref_prefix {
    enum stand at;
    bool known;       /* is the number of declared blocks settled? */
    uint32_t declared;/* how many, when settled */
    uint32_t done;    /* timer rungs finished */
    uint32_t named;   /* the highest n of a Tn.Q so far, 0 if none */
    uint32_t mx;      /* one more than the highest %MX named, 0 if none */
};

/* Takes one more word. False, with the prefix as it was, when no accepted list
 * has this word after those before it. */
bool ref_follow(struct ref_prefix *p, uint32_t word);

/* May the list, or the text's instructions, end here? */
bool ref_may_end(const struct ref_prefix *p);

/* Reads a whole list: TEXT, or accepted and *p tells its blocks and %MX. */
struct ref_answer ref_read_words(const uint32_t *words, size_t n,
                                 struct ref_prefix *p);

/* One instruction line (without its LF) as a word; false when the line is no
 * instruction. And the line, with its LF, of a word that is one: the number of
 * bytes put to `out`, which has room for 32. */
bool ref_word_of_line(const uint8_t *line, size_t n, uint32_t *word);
size_t ref_line_of_word(uint32_t word, uint8_t *out);

#endif
