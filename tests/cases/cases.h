/* What the drivers share: the lines of a case file, read so that nothing is
 * passed over in silence, and the slices that are lent to a call. What the
 * calls should answer is in the case and expected files alone. */
#ifndef CASES_H
#define CASES_H

#include <inttypes.h>
#include <stdbool.h>
#include <stddef.h>
#include <stdint.h>

#include "splicetuck.h"

/* Ends the driver with 1, and with the number of the line on standard error. */
_Noreturn void wrong(const char *format, ...)
    __attribute__((format(printf, 1, 2)));

/* ---- Lines of standard input ---- */

/* The next line without its LF, or NULL after the last. It is valid until the
 * next call. */
const char *next_line(void);

/* ---- What a line says: each moves the place behind what it read ---- */

/* A decimal of at most `most`. */
uint64_t read_number(const char **at, uint64_t most);

/* The text that stands there and nothing else. */
void read_mark(const char **at, const char *mark);

/* As far as the first byte of `ends`; how many bytes. One of them is there. */
size_t read_up_to(const char **at, const char *ends);

/* "2+5" is the instruction word of operator 2 and operand 5: "operator number
 * times 134,217,728 plus operand". */
uint32_t read_word(const char **at);

/* ---- Lists of numbers ---- */

enum { CAPACITY = 6000 };

/* Numbers of any type; a negative one in two's complement. Behind the last
 * all are 0. */
struct numbers {
    size_t len;
    uint64_t at[CAPACITY];
};

void clear(struct numbers *list);
void push(struct numbers *list, uint64_t number);

/* ---- Lent slices ---- */

/* A slice of `len` numbers of `each` bytes, with guard bytes on both sides. */
struct lent {
    void *at;
    size_t len, each;
    uint8_t *all;   /* guard, slice, guard */
    uint8_t *first; /* the same bytes as they were lent */
};

struct lent lend(const void *content, size_t len, size_t each);

/* The front of a list, in the slice's type. */
struct lent lend_numbers(const struct numbers *list, size_t len, size_t each);

/* The same number everywhere. */
struct lent lend_same(uint64_t number, size_t len, size_t each);

/* One of its numbers, as it is now. */
uint64_t number_in(const struct lent *l, size_t i);

/* After a call: its guards, and where nothing was to be written its content
 * too, must be as they were lent. Then the slice is freed. */
void take_back(struct lent *l, bool kept);

/* ---- Answers ---- */

/* An accepted call has place 0, a refused one length 0; the place, or the
 * length. */
uint64_t place_or_length(struct splicetuck_answer a);

/* Ends a driver that has run all its cases. */
int finish(void);

#endif
