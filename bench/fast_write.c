/* The reference's writer with the lines made by hand: a switch on the operator,
 * comparisons of the operand, and no formatting of the C library. */
#include "fast.h"
#include "words.h"

#include <stdio.h>
#include <string.h>

static size_t fast_line_of_word(uint32_t word, uint8_t *out);
static int fast_block_line(char *line, size_t room, const char *format, unsigned n);

#define ref_line_of_word fast_line_of_word
#define ref_write_tables fast_write_tables
#define ref_write_words fast_write_words
#define snprintf fast_block_line
#include "write.c"

static uint8_t *put_digits(uint8_t *at, uint32_t n)
{
    uint8_t digits[10];
    size_t i = sizeof digits;
    do
        digits[--i] = (uint8_t)('0' + n % 10);
    while ((n /= 10) != 0);
    memcpy(at, digits + i, sizeof digits - i);
    return at + (sizeof digits - i);
}

#define PUT(at, literal) (memcpy(at, literal, sizeof literal - 1), (at) + sizeof literal - 1)

static uint8_t *put_name(uint8_t *at, uint32_t o)
{
    if (o < BASE_IX)
        return put_digits(PUT(at, "%MX"), o);
    if (o <= BASE_QX)
        return put_digits(PUT(at, "%IX"), o - BASE_IX);
    if (o <= BASE_Q)
        return put_digits(PUT(at, "%QX"), o - BASE_QX);
    if (o == OPERAND_FALSE)
        return PUT(at, "FALSE");
    if (o == OPERAND_TRUE)
        return PUT(at, "TRUE");
    *at++ = 'T';
    if (o <= BASE_IN) {
        at = put_digits(at, o - BASE_Q);
        return PUT(at, ".Q");
    }
    if (o <= BASE_PT) {
        at = put_digits(at, o - BASE_IN);
        return PUT(at, ".IN");
    }
    if (o <= BASE_T) {
        at = put_digits(at, o - BASE_PT);
        return PUT(at, ".PT");
    }
    return put_digits(at, o - BASE_T);
}

static size_t fast_line_of_word(uint32_t word, uint8_t *out)
{
    uint32_t o = ref_operand(word);
    uint8_t *at = out;
    switch ((enum operator)ref_operator(word)) {
    case OP_LD: at = put_name(PUT(at, "LD "), o); break;
    case OP_LDN: at = put_name(PUT(at, "LDN "), o); break;
    case OP_AND: at = put_name(PUT(at, "AND "), o); break;
    case OP_ANDN: at = put_name(PUT(at, "ANDN "), o); break;
    case OP_OR: at = PUT(at, "OR("); break;
    case OP_CLOSE: at = PUT(at, ")"); break;
    case OP_ST: at = put_name(PUT(at, "ST "), o); break;
    case OP_S: at = put_name(PUT(at, "S "), o); break;
    case OP_R: at = put_name(PUT(at, "R "), o); break;
    case OP_CAL: at = put_name(PUT(at, "CAL "), o); break;
    case OP_LD_TIME: at = put_digits(PUT(at, "LD T#"), o); at = PUT(at, "ms"); break;
    }
    *at++ = '\n';
    return (size_t)(at - out);
}

static int fast_block_line(char *line, size_t room, const char *format, unsigned n)
{
    (void)room;
    (void)format;
    line[0] = 'T';
    uint8_t *end = put_digits((uint8_t *)line + 1, n);
    memcpy(end, " : TON;", sizeof " : TON;");
    return 0;
}
