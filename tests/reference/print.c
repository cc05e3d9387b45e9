/* What the program prints for the contents of its seven files. */
#include "files.h"

#include <inttypes.h>
#include <stdio.h>
#include <stdlib.h>
#include <string.h>

/* "A text above 65,536 bytes is ROOM here." */
enum { MOST_TEXT = 65536 };

static const size_t number_size[7] = {
    [REF_FRAME] = sizeof(uint32_t), [REF_STATES] = sizeof(uint16_t),
    [REF_MOVES] = sizeof(int16_t), [REF_PRESETS] = sizeof(uint32_t),
    [REF_TIMERPAIRS] = sizeof(uint16_t), [REF_OUTPUTPAIRS] = sizeof(uint16_t),
    [REF_SCANWORDS] = sizeof(uint64_t),
};

static void *need(size_t n)
{
    void *p = malloc(n == 0 ? 1 : n);
    if (p == NULL)
        abort();
    return p;
}

/* "FIELD comes before all, file by file in the order of the program section." */
struct ref_answer ref_read_files(const uint8_t *const files[7],
                                 const size_t lens[7], struct ref_contents *all)
{
    *all = (struct ref_contents){.counts = {0}};
    for (int kind = 0; kind < 7; kind++) {
        /* A number takes at least a byte of its file. */
        all->numbers[kind] = need(lens[kind] * number_size[kind]);
        struct ref_answer answer =
            ref_read_records((enum ref_kind)kind, files[kind], lens[kind],
                             all->numbers[kind], lens[kind]);
        if (answer.number != REF_ACCEPTED)
            return answer;
        all->counts[kind] = (size_t)answer.length;
    }
    return ref_accepted(0);
}

void ref_free_files(struct ref_contents *all)
{
    for (int kind = 0; kind < 7; kind++)
        free(all->numbers[kind]);
}

struct ref_tables ref_tables_of(const struct ref_contents *all)
{
    const uint32_t *frame = all->numbers[REF_FRAME];
    return (struct ref_tables){
        .states = all->numbers[REF_STATES],
        .states_len = all->counts[REF_STATES],
        .moves = all->numbers[REF_MOVES],
        .moves_len = all->counts[REF_MOVES],
        .presets = all->numbers[REF_PRESETS],
        .presets_len = all->counts[REF_PRESETS],
        .timer_pairs = all->numbers[REF_TIMERPAIRS],
        .timer_pairs_len = all->counts[REF_TIMERPAIRS],
        .output_pairs = all->numbers[REF_OUTPUTPAIRS],
        .output_pairs_len = all->counts[REF_OUTPUTPAIRS],
        .step = frame[0], .inputs = frame[1], .outputs = frame[2],
    };
}

/* "a line a scan: scan from 1, leaf, outputs as a number" */
static size_t print_scans(const struct ref_tables *t, const uint64_t *inputs,
                          size_t scans, uint8_t *out)
{
    size_t state_len = (size_t)ref_state_length(t).length, n = 0;
    uint32_t *state = need(state_len * sizeof *state);
    uint16_t *leaves = need(scans * sizeof *leaves);
    uint64_t *outputs = need(scans * sizeof *outputs);
    memset(state, 0, state_len * sizeof *state); /* "All zero is the start." */
    ref_chart_run(t, state, state_len, inputs, scans, leaves, scans, outputs,
                  scans);
    for (size_t i = 0; i < scans; i++) {
        char line[64];
        int len = snprintf(line, sizeof line, "%zu,%u,%" PRIu64 "\n", i + 1,
                           (unsigned)leaves[i], outputs[i]);
        memcpy(out + n, line, (size_t)len);
        n += (size_t)len;
    }
    free(state);
    free(leaves);
    free(outputs);
    return n;
}

size_t ref_print_refusal(struct ref_answer answer, uint8_t *out)
{
    char line[64];
    int len = snprintf(line, sizeof line, "REFUSED,%" PRIu32 ",%" PRIu64 "\n",
                       answer.number, answer.place);
    memcpy(out, line, (size_t)len);
    return (size_t)len;
}

struct ref_answer ref_print(const uint8_t *const files[7],
                            const size_t lens[7],
                            uint8_t *out, size_t *out_len)
{
    struct ref_contents all;
    struct ref_answer answer = ref_read_files(files, lens, &all);
    if (answer.number == REF_ACCEPTED) {
        struct ref_tables t = ref_tables_of(&all);
        answer = ref_write_tables(&t, out, MOST_TEXT);
        if (answer.number == REF_ACCEPTED) {
            size_t text = (size_t)answer.length;
            *out_len = text + print_scans(&t, all.numbers[REF_SCANWORDS],
                                          all.counts[REF_SCANWORDS],
                                          out + text);
            answer.length = *out_len;
        }
    }
    if (answer.number != REF_ACCEPTED)
        *out_len = ref_print_refusal(answer, out);
    ref_free_files(&all);
    return answer;
}
