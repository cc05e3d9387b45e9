/* The contents of the program's seven files, for what it prints with and without
 * an option. Not public. */
#ifndef FILES_H
#define FILES_H

#include "tables.h"

/* The numbers of the seven files. */
struct ref_contents {
    void *numbers[7];
    size_t counts[7];
};

/* FIELD, or accepted with length 0; what it fills is freed in either case. */
struct ref_answer ref_read_files(const uint8_t *const files[7],
                                 const size_t lens[7],
                                 struct ref_contents *all);
void ref_free_files(struct ref_contents *all);

/* The tables in files that were accepted. */
struct ref_tables ref_tables_of(const struct ref_contents *all);

/* The line REFUSED,number,place; gives its bytes. */
size_t ref_print_refusal(struct ref_answer answer, uint8_t *out);

#endif
