/* Lines to words and words to lines by hand, for the rows in which the reference
 * is slow by design: it looks every line up in tables of strings. */
#ifndef FAST_H
#define FAST_H

#include "reference.h"

struct ref_answer fast_write_tables(const struct ref_tables *tables,
                                    uint8_t *out, size_t out_len);
struct ref_answer fast_write_words(const uint32_t *words, size_t n,
                                   uint8_t *out, size_t out_len);
struct ref_answer fast_read_text(const uint8_t *text, size_t n,
                                 uint32_t *out, size_t out_len);

#endif
