/* Texts of several megabytes: a long list of words is written, read back and
 * written again by the product, and each time compared with the reference. */
#include "reference.h"
#include "splicetuck.h"

#include <stdint.h>
#include <stdio.h>
#include <stdlib.h>
#include <string.h>

enum { RUNGS = 20000, LINES = 20, WORDS = RUNGS * LINES, TEXT = 8 << 20 };

static uint32_t words[WORDS], back[WORDS];
static uint8_t ours[TEXT], theirs[TEXT];

static uint32_t word(uint32_t operator, uint32_t operand)
{
    return operator * 134217728u + operand;
}

/* Rungs of one load, tests on the highest numbers, a bracket and two stores. */
static void fill(void)
{
    for (uint32_t r = 0; r < RUNGS; r++) {
        uint32_t *w = words + r * LINES;
        w[0] = word(1 + r % 2, 255);
        for (uint32_t i = 1; i < LINES - 5; i++)
            w[i] = word(3 + (r + i) % 2, i % 3 == 0 ? 384 + 64 : 100 + i);
        w[LINES - 5] = word(5, 0);
        w[LINES - 4] = word(1, 2001 - r % 2);
        w[LINES - 3] = word(6, 0);
        w[LINES - 2] = word(7, 512 + 64);
        w[LINES - 1] = word(8 + r % 2, r % 256);
    }
}

static void must(int same, const char *what)
{
    if (same)
        return;
    printf("BIG: %s differs\n", what);
    exit(1);
}

int main(void)
{
    fill();
    struct splicetuck_answer a = splicetuck_write_words(words, WORDS, ours, TEXT);
    struct ref_answer b = ref_write_words(words, WORDS, theirs, TEXT);
    must(a.number == 0 && b.number == 0 && a.length == b.length
             && memcmp(ours, theirs, a.length) == 0, "the text");
    struct splicetuck_answer c = splicetuck_read(ours, a.length, back, WORDS);
    must(c.number == 0 && c.length == WORDS && memcmp(words, back, sizeof words) == 0,
         "what is read back");
    ours[a.length - 13] = '\r';
    struct splicetuck_answer d = splicetuck_read(ours, a.length, back, WORDS);
    struct ref_answer e = ref_read_text(ours, a.length, back, WORDS);
    must(d.number == e.number && d.place == e.place && d.number == 13, "a damaged end");
    printf("BIG: %llu bytes, %d words: the same\n", (unsigned long long)a.length, WORDS);
    return 0;
}
