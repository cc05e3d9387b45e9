/* One instruction line and its word, both ways. Which words are instructions
 * and where they may stand is left to words.c. */
#include "tables.h"
#include "words.h"

#include <string.h>

static const struct {
    const char *name;
    enum operator operator;
} operators[] = {
    {"LD ", OP_LD}, {"LDN ", OP_LDN}, {"AND ", OP_AND}, {"ANDN ", OP_ANDN},
    {"ST ", OP_ST}, {"S ", OP_S}, {"R ", OP_R}, {"CAL ", OP_CAL},
};

/* Operands that are a number between a head and a tail. */
static const struct {
    const char *head, *tail;
    uint32_t base, least, most;
} numbered[] = {
    {"%MX", "", BASE_MX, 0, MOST_MX},
    {"%IX", "", BASE_IX, 1, MOST_IX},
    {"%QX", "", BASE_QX, 1, MOST_QX},
    {"T", ".Q", BASE_Q, 1, MOST_BLOCKS},
    {"T", ".IN", BASE_IN, 1, MOST_BLOCKS},
    {"T", ".PT", BASE_PT, 1, MOST_BLOCKS},
    {"T", "", BASE_T, 1, MOST_BLOCKS},
};

#define COUNT(array) (sizeof(array) / sizeof(array)[0])

/* What is left of a line. */
struct rest {
    const uint8_t *at;
    size_t n;
};

static bool eat(struct rest *r, const char *what)
{
    size_t n = strlen(what);
    if (r->n < n || memcmp(r->at, what, n) != 0)
        return false;
    r->at += n;
    r->n -= n;
    return true;
}

/* "Numbers have no leading zero." */
static bool eat_number(struct rest *r, uint32_t least, uint32_t most,
                       uint32_t *number)
{
    size_t digits = 0;
    uint32_t value = 0;
    while (digits < r->n && r->at[digits] >= '0' && r->at[digits] <= '9') {
        if (digits == 1 && value == 0)
            return false;
        value = value * 10 + (uint32_t)(r->at[digits++] - '0');
        if (value > most)
            return false; /* before it can grow out of 32 bits */
    }
    if (digits == 0 || value < least)
        return false;
    r->at += digits;
    r->n -= digits;
    *number = value;
    return true;
}

static bool is_operand(struct rest r, uint32_t *operand)
{
    for (size_t i = 0; i < COUNT(numbered); i++) {
        struct rest try = r;
        uint32_t n;
        if (eat(&try, numbered[i].head)
            && eat_number(&try, numbered[i].least, numbered[i].most, &n)
            && eat(&try, numbered[i].tail) && try.n == 0) {
            *operand = numbered[i].base + n;
            return true;
        }
    }
    if (r.n == 4 && eat(&r, "TRUE")) {
        *operand = OPERAND_TRUE;
        return true;
    }
    if (r.n == 5 && eat(&r, "FALSE")) {
        *operand = OPERAND_FALSE;
        return true;
    }
    return false;
}

bool ref_word_of_line(const uint8_t *line, size_t n, uint32_t *word)
{
    struct rest r = {.at = line, .n = n};
    uint32_t operand;
    if (n == 3 && eat(&r, "OR(")) {
        *word = WORD(OP_OR, NO_OPERAND);
        return true;
    }
    if (n == 1 && eat(&r, ")")) {
        *word = WORD(OP_CLOSE, NO_OPERAND);
        return true;
    }
    if (eat(&r, "LD T#")) {
        *word = eat_number(&r, 1, MOST_TIME, &operand)
            ? WORD(OP_LD_TIME, operand) : 0;
        return *word != 0 && eat(&r, "ms") && r.n == 0;
    }
    for (size_t i = 0; i < COUNT(operators); i++)
        if (eat(&r, operators[i].name)) {
            if (!is_operand(r, &operand))
                return false;
            *word = WORD(operators[i].operator, operand);
            return true;
        }
    return false;
}

static size_t put(uint8_t *out, const char *what)
{
    size_t n = strlen(what);
    memcpy(out, what, n);
    return n;
}

static size_t put_number(uint8_t *out, uint32_t number)
{
    uint8_t backwards[10];
    size_t n = 0, i;
    do {
        backwards[n++] = (uint8_t)('0' + number % 10);
        number /= 10;
    } while (number != 0);
    for (i = 0; i < n; i++)
        out[i] = backwards[n - 1 - i];
    return n;
}

static size_t put_operand(uint8_t *out, uint32_t operand)
{
    if (operand == OPERAND_TRUE)
        return put(out, "TRUE");
    if (operand == OPERAND_FALSE)
        return put(out, "FALSE");
    for (size_t i = 0; i < COUNT(numbered); i++)
        if (ref_within(operand, numbered[i].base, numbered[i].least,
                       numbered[i].most)) {
            size_t n = put(out, numbered[i].head);
            n += put_number(out + n, operand - numbered[i].base);
            return n + put(out + n, numbered[i].tail);
        }
    return 0;
}

size_t ref_line_of_word(uint32_t word, uint8_t *out)
{
    uint32_t operator = ref_operator(word), operand = ref_operand(word);
    size_t n = 0;
    if (operator == OP_OR)
        n = put(out, "OR(");
    else if (operator == OP_CLOSE)
        n = put(out, ")");
    else if (operator == OP_LD_TIME) {
        n = put(out, "LD T#");
        n += put_number(out + n, operand);
        n += put(out + n, "ms");
    } else {
        for (size_t i = 0; i < COUNT(operators); i++)
            if (operators[i].operator == operator)
                n = put(out, operators[i].name);
        n += put_operand(out + n, operand);
    }
    out[n++] = '\n';
    return n;
}
