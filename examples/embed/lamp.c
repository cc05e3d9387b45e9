/* The Lamp chart of document 01 through the C interface: checked, written, read
 * back, written again from its words, and run over its five scans. It prints
 * what examples/lamp/expected holds. */
#include "splicetuck.h"

#include <inttypes.h>
#include <stdio.h>
#include <stdlib.h>
#include <string.h>

#define COUNT(a) (sizeof(a) / sizeof((a)[0]))

static const uint16_t states[] = {0, 1, 0, 0, 0, 0};
static const int16_t moves[] = {
    1, 2, 0, 1, 0, 0, 0, 0, 0, 0, 0,
    2, 1, 0, 2, 101, 0, 0, 0, 0, 0, 0,
};
static const uint32_t presets[] = {250};
static const uint16_t timer_pairs[] = {1, 2};
static const uint16_t output_pairs[] = {1, 2};

/* The tables, as every call takes them. */
#define TABLES 100, 2, 1, states, COUNT(states), moves, COUNT(moves), presets, \
    COUNT(presets), timer_pairs, COUNT(timer_pairs), output_pairs, \
    COUNT(output_pairs)

static void accepted(const char *call, struct splicetuck_answer a)
{
    if (a.number == 0)
        return;
    fprintf(stderr, "%s: REFUSED,%" PRIu32 ",%" PRIu64 "\n", call, a.number,
            a.place);
    exit(1);
}

static void write_and_read(void)
{
    static uint8_t text[65536], again[65536];
    static uint32_t words[4096];
    struct splicetuck_answer written = splicetuck_write(TABLES, text, sizeof text);
    accepted("write", written);
    struct splicetuck_answer read =
        splicetuck_read(text, written.length, words, COUNT(words));
    accepted("read", read);
    struct splicetuck_answer back =
        splicetuck_write_words(words, read.length, again, sizeof again);
    accepted("write_words", back);
    if (back.length != written.length || memcmp(text, again, back.length) != 0) {
        fprintf(stderr, "the text did not come back\n");
        exit(1);
    }
    fwrite(text, 1, written.length, stdout);
}

static void run(void)
{
    const uint64_t scans[] = {1, 2, 2, 2, 2};
    uint16_t leaves[COUNT(scans)];
    uint64_t outputs[COUNT(scans)];
    uint32_t state[16] = {0}; /* all zero is the start */
    struct splicetuck_answer length = splicetuck_state_length(TABLES);
    accepted("state_length", length);
    accepted("run_chart",
             splicetuck_run_chart(TABLES, state, length.length, scans,
                                  COUNT(scans), leaves, COUNT(leaves), outputs,
                                  COUNT(outputs)));
    for (size_t i = 0; i < COUNT(scans); i++)
        printf("%zu,%" PRIu16 ",%" PRIu64 "\n", i + 1, leaves[i], outputs[i]);
}

int main(void)
{
    accepted("check", splicetuck_check(TABLES));
    write_and_read();
    run();
    return 0;
}
