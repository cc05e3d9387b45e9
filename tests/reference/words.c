/* The grammar of accepted lists of words, as a forward automaton: after each
 * word it knows that the words so far can still be continued to an accepted
 * list (or, in a text, to an accepted text). */
#include "words.h"
#include "tables.h"

/* "Tests are on %IX1 to %IX64, %MX0 to %MX255, declared Tn.Q".
 *
 * While the blocks of a word list are not settled, every Tn.Q up to T32.Q can
 * still be declared by a later timer rung. */
static bool is_test(const struct ref_prefix *p, uint32_t operand)
{
    uint32_t blocks = p->known ? p->declared : MOST_BLOCKS;
    return ref_within(operand, BASE_MX, 0, MOST_MX)
        || ref_within(operand, BASE_IX, 1, MOST_IX)
        || ref_within(operand, BASE_Q, 1, blocks);
}

static void note_operand(struct ref_prefix *p, uint32_t operand)
{
    if (ref_within(operand, BASE_MX, 0, MOST_MX) && operand >= p->mx)
        p->mx = operand + 1;
    if (ref_within(operand, BASE_Q, 1, MOST_BLOCKS)
        && operand - BASE_Q > p->named)
        p->named = operand - BASE_Q;
}

/* "A body is LD or LDN" at its head, and so is what a bracket holds; "TRUE and
 * FALSE after LD only". */
static bool follow_load(struct ref_prefix *p, uint32_t word, enum stand then)
{
    uint32_t operator = ref_operator(word), operand = ref_operand(word);
    bool constant = operator == OP_LD
        && (operand == OPERAND_FALSE || operand == OPERAND_TRUE);
    bool test = (operator == OP_LD || operator == OP_LDN)
        && is_test(p, operand);
    if (!constant && !test)
        return false;
    if (test)
        note_operand(p, operand);
    p->at = then;
    return true;
}

static bool follow_and(struct ref_prefix *p, uint32_t word)
{
    uint32_t operator = ref_operator(word), operand = ref_operand(word);
    if ((operator != OP_AND && operator != OP_ANDN) || !is_test(p, operand))
        return false;
    note_operand(p, operand);
    return true;
}

/* "one or more of ST (on %MX or %QX), S, R (on %MX)" */
static bool follow_store(struct ref_prefix *p, uint32_t word)
{
    uint32_t operator = ref_operator(word), operand = ref_operand(word);
    bool mx = ref_within(operand, BASE_MX, 0, MOST_MX);
    bool qx = ref_within(operand, BASE_QX, 1, MOST_QX);
    bool store = (operator == OP_ST && (mx || qx))
        || ((operator == OP_S || operator == OP_R) && mx);
    if (!store)
        return false;
    /* This rung is no timer rung, so no timer rung can come any more: every
     * block that was named must be declared by now, and every block that was
     * declared must have had its rung. */
    if (p->known ? p->done != p->declared : p->named > p->done)
        return false;
    if (!p->known) {
        p->known = true;
        p->declared = p->done;
    }
    if (mx)
        note_operand(p, operand);
    p->at = AT_STORES;
    return true;
}

/* What may follow a body's head: more of the body, or the end of its rung. */
static bool follow_body(struct ref_prefix *p, uint32_t word)
{
    if (word == WORD(OP_OR, NO_OPERAND)) {
        p->at = AT_BRACKET;
        return true;
    }
    uint32_t most = p->known ? p->declared : MOST_BLOCKS;
    if (p->done < most && word == WORD(OP_ST, BASE_IN + p->done + 1)) {
        p->at = AT_TIME;
        return true;
    }
    return follow_and(p, word) || follow_store(p, word);
}

static bool follow_bracket(struct ref_prefix *p, uint32_t word)
{
    if (word == WORD(OP_CLOSE, NO_OPERAND)) {
        p->at = IN_BODY;
        return true;
    }
    return follow_and(p, word);
}

/* The tail of a timer rung after ST Tn.IN: LD T#..ms, ST Tn.PT, CAL Tn. */
static bool follow_timer_tail(struct ref_prefix *p, uint32_t word)
{
    uint32_t n = p->done + 1;
    if (p->at == AT_TIME) {
        if (ref_operator(word) != OP_LD_TIME
            || !ref_within(ref_operand(word), 0, 1, MOST_TIME))
            return false;
        p->at = AT_PT;
    } else if (p->at == AT_PT) {
        if (word != WORD(OP_ST, BASE_PT + n))
            return false;
        p->at = AT_CAL;
    } else {
        if (word != WORD(OP_CAL, BASE_T + n))
            return false;
        p->done = n;
        p->at = AT_RUNG;
    }
    return true;
}

bool ref_follow(struct ref_prefix *p, uint32_t word)
{
    switch (p->at) {
    case AT_RUNG:
        return follow_load(p, word, IN_BODY);
    case AT_STORES:
        return follow_load(p, word, IN_BODY) || follow_store(p, word);
    case IN_BODY:
        return follow_body(p, word);
    case AT_BRACKET:
        return follow_load(p, word, IN_BRACKET);
    case IN_BRACKET:
        return follow_bracket(p, word);
    default:
        return follow_timer_tail(p, word);
    }
}

bool ref_may_end(const struct ref_prefix *p)
{
    if (p->at != AT_RUNG && p->at != AT_STORES)
        return false;
    return p->known ? p->done == p->declared : p->named <= p->done;
}

struct ref_answer ref_read_words(const uint32_t *words, size_t n,
                                 struct ref_prefix *p)
{
    *p = (struct ref_prefix){.at = AT_RUNG, .known = false};
    for (size_t i = 0; i < n; i++)
        if (!ref_follow(p, words[i]))
            return ref_refused(REF_TEXT, i);
    if (!ref_may_end(p))
        return ref_refused(REF_TEXT, n); /* "if only ... words are missing" */
    return ref_accepted(0);
}

struct ref_answer ref_controller_size(const uint32_t *words, size_t n,
                                      uint64_t *flip_flop_bytes,
                                      uint64_t *blocks)
{
    struct ref_prefix p;
    struct ref_answer answer = ref_read_words(words, n, &p);
    if (answer.number == REF_ACCEPTED) {
        *flip_flop_bytes = p.mx;
        *blocks = p.done;
    }
    return answer;
}
