/* The reference's reader with the lines taken apart by hand: the first bytes
 * choose what is tried. */
#include "fast.h"
#include "words.h"

#include <stdio.h>
#include <string.h>

static bool fast_word_of_line(const uint8_t *line, size_t n, uint32_t *word);
static int fast_block_line(char *line, size_t room, const char *format, unsigned n);

#define ref_word_of_line fast_word_of_line
#define ref_read_text fast_read_text
#define snprintf fast_block_line
#include "text.c"

/* A number from least to most that ends where the line, less its tail, does. */
static bool digits_of(const uint8_t *at, const uint8_t *end, uint32_t least,
                      uint32_t most, uint32_t base, uint32_t *operand)
{
    uint32_t value = 0;
    if (at >= end || (*at == '0' && end - at > 1))
        return false;
    for (; at < end; at++) {
        uint32_t digit = (uint32_t)*at - '0';
        if (digit > 9)
            return false;
        value = 10 * value + digit;
        if (value > most)
            return false;
    }
    *operand = base + value;
    return value >= least;
}

static bool timer_of(const uint8_t *at, const uint8_t *end, uint32_t *operand)
{
    if (end - at > 3 && end[-3] == '.') {
        if (end[-2] == 'I' && end[-1] == 'N')
            return digits_of(at, end - 3, 1, MOST_BLOCKS, BASE_IN, operand);
        if (end[-2] == 'P' && end[-1] == 'T')
            return digits_of(at, end - 3, 1, MOST_BLOCKS, BASE_PT, operand);
        return false;
    }
    if (end - at > 2 && end[-2] == '.' && end[-1] == 'Q')
        return digits_of(at, end - 2, 1, MOST_BLOCKS, BASE_Q, operand);
    return digits_of(at, end, 1, MOST_BLOCKS, BASE_T, operand);
}

static bool operand_of(const uint8_t *at, const uint8_t *end, uint32_t *operand)
{
    if (end - at > 3 && at[0] == '%' && at[2] == 'X') {
        if (at[1] == 'M')
            return digits_of(at + 3, end, 0, MOST_MX, BASE_MX, operand);
        if (at[1] == 'I')
            return digits_of(at + 3, end, 1, MOST_IX, BASE_IX, operand);
        if (at[1] == 'Q')
            return digits_of(at + 3, end, 1, MOST_QX, BASE_QX, operand);
        return false;
    }
    if (end - at == 4 && memcmp(at, "TRUE", 4) == 0) {
        *operand = OPERAND_TRUE;
        return true;
    }
    if (end - at == 5 && memcmp(at, "FALSE", 5) == 0) {
        *operand = OPERAND_FALSE;
        return true;
    }
    return end - at > 1 && at[0] == 'T' && timer_of(at + 1, end, operand);
}

/* The operator in front of a space, or 0. */
static uint32_t operator_of(const uint8_t *line, size_t n)
{
    switch (n) {
    case 1:
        return line[0] == 'S' ? OP_S : line[0] == 'R' ? OP_R : 0;
    case 2:
        return memcmp(line, "LD", 2) == 0 ? OP_LD : memcmp(line, "ST", 2) == 0 ? OP_ST : 0;
    case 3:
        return memcmp(line, "AND", 3) == 0 ? OP_AND : memcmp(line, "LDN", 3) == 0 ? OP_LDN
             : memcmp(line, "CAL", 3) == 0 ? OP_CAL : 0;
    case 4:
        return memcmp(line, "ANDN", 4) == 0 ? OP_ANDN : 0;
    default:
        return 0;
    }
}

static bool fast_word_of_line(const uint8_t *line, size_t n, uint32_t *word)
{
    uint32_t operand, operator;
    size_t space = 0;
    const uint8_t *end = line + n;
    while (space < n && space < 5 && line[space] != ' ')
        space++;
    if (space == n) {
        *word = n == 1 && line[0] == ')' ? WORD(OP_CLOSE, NO_OPERAND)
              : n == 3 && memcmp(line, "OR(", 3) == 0 ? WORD(OP_OR, NO_OPERAND) : 0;
        return *word != 0;
    }
    operator = operator_of(line, space);
    if (operator == 0)
        return false;
    const uint8_t *at = line + space + 1;
    if (operator == OP_LD && end - at > 4 && at[0] == 'T' && at[1] == '#') {
        operator = OP_LD_TIME;
        if (end[-2] != 'm' || end[-1] != 's' || !digits_of(at + 2, end - 2, 1, MOST_TIME, 0, &operand))
            return false;
    } else if (!operand_of(at, end, &operand))
        return false;
    *word = WORD(operator, operand);
    return true;
}

static int fast_block_line(char *line, size_t room, const char *format, unsigned n)
{
    (void)room;
    (void)format;
    *line++ = 'T';
    if (n > 9)
        *line++ = (char)('0' + n / 10);
    *line++ = (char)('0' + n % 10);
    memcpy(line, " : TON;", sizeof " : TON;");
    return 0;
}
