/* show FOLDER           prints what the program prints for the seven files there.
 * show --needs FOLDER   prints what it prints with that option.
 * show -c FOLDER        compares the first with FOLDER/expected, and the second
 *                       with FOLDER/expected-needs if that is there, and compares
 *                       the chart's run with the run of the printed text and with
 *                       ref_history.
 * Leans on the reference. */
#include "reference.h"

#include <errno.h>
#include <inttypes.h>
#include <stdio.h>
#include <stdlib.h>
#include <string.h>

static const char *const names[7] = {
    "frame.csv", "states.csv", "moves.csv", "presets.csv",
    "timerpairs.csv", "outputpairs.csv", "scans.csv",
};

static void *need(size_t n)
{
    void *p = calloc(n == 0 ? 1 : n, 1);
    if (p == NULL)
        abort();
    return p;
}

/* The whole file; a missing one is empty. */
static uint8_t *whole(const char *folder, const char *name, size_t *len)
{
    char path[4096];
    snprintf(path, sizeof path, "%s/%s", folder, name);
    *len = 0;
    FILE *f = fopen(path, "rb");
    if (f == NULL) {
        if (errno != ENOENT) {
            perror(path);
            exit(2);
        }
        return need(0);
    }
    size_t room = 1 << 20;
    uint8_t *bytes = need(room);
    size_t got;
    while ((got = fread(bytes + *len, 1, room - *len, f)) > 0) {
        *len += got;
        if (*len == room) {
            room *= 2;
            bytes = realloc(bytes, room);
            if (bytes == NULL)
                abort();
        }
    }
    if (ferror(f)) {
        perror(path);
        exit(2);
    }
    fclose(f);
    return bytes;
}

static void *numbers(enum ref_kind kind, const uint8_t *bytes, size_t len,
                     size_t *count)
{
    void *out = need((len + 1) * sizeof(uint64_t));
    struct ref_answer a = ref_read_records(kind, bytes, len, out, len + 1);
    if (a.number != REF_ACCEPTED)
        abort();
    *count = (size_t)a.length;
    return out;
}

/* The chart's run, the run of its text, and the reading from earlier leaves. */
static int runs_agree(uint8_t *const files[7], const size_t lens[7])
{
    size_t n[7];
    void *all[7];
    for (int k = 0; k < 7; k++)
        all[k] = numbers((enum ref_kind)k, files[k], lens[k], &n[k]);
    const uint32_t *frame = all[REF_FRAME];
    struct ref_tables t = {
        .states = all[REF_STATES], .states_len = n[REF_STATES],
        .moves = all[REF_MOVES], .moves_len = n[REF_MOVES],
        .presets = all[REF_PRESETS], .presets_len = n[REF_PRESETS],
        .timer_pairs = all[REF_TIMERPAIRS],
        .timer_pairs_len = n[REF_TIMERPAIRS],
        .output_pairs = all[REF_OUTPUTPAIRS],
        .output_pairs_len = n[REF_OUTPUTPAIRS],
        .step = frame[0], .inputs = frame[1], .outputs = frame[2],
    };
    const uint64_t *in = all[REF_SCANWORDS];
    size_t scans = n[REF_SCANWORDS];
    size_t state_len = (size_t)ref_state_length(&t).length;
    uint32_t *state = need(state_len * sizeof *state);
    uint16_t *leaf_a = need(scans * sizeof *leaf_a);
    uint16_t *leaf_b = need(scans * sizeof *leaf_b);
    uint64_t *out_a = need(scans * sizeof *out_a);
    uint64_t *out_b = need(scans * sizeof *out_b);
    uint64_t *out_c = need(scans * sizeof *out_c);
    if (ref_chart_run(&t, state, state_len, in, scans, leaf_a, scans, out_a,
                      scans).number != 0
        || ref_history(&t, in, scans, leaf_b, scans, out_b, scans).number != 0)
        return 0;
    uint8_t *text = need(65536);
    uint32_t *words = need(65536 * sizeof *words);
    struct ref_answer w = ref_write_tables(&t, text, 65536);
    struct ref_answer r =
        ref_read_text(text, (size_t)w.length, words, 65536);
    uint64_t bytes = 0, blocks = 0;
    if (w.number != 0 || r.number != 0
        || ref_controller_size(words, (size_t)r.length, &bytes,
                               &blocks).number != 0)
        return 0;
    uint8_t *ff = need((size_t)bytes);
    struct ref_block *bl = need((size_t)blocks * sizeof *bl);
    if (ref_program_run(words, (size_t)r.length, t.step, ff, (size_t)bytes, bl,
                        (size_t)blocks, in, scans, out_c, scans).number != 0)
        return 0;
    return memcmp(leaf_a, leaf_b, scans * sizeof *leaf_a) == 0
           && memcmp(out_a, out_b, scans * sizeof *out_a) == 0
           && memcmp(out_a, out_c, scans * sizeof *out_a) == 0;
}

/* What one of ref_print and ref_needs prints. */
struct printed {
    uint8_t *bytes;
    size_t len;
    struct ref_answer answer;
};

static struct printed printed(uint8_t *const files[7], const size_t lens[7],
                              int needs)
{
    struct printed p = {.bytes = need(needs ? REF_NEEDS_MOST : REF_PRINT_MOST)};
    const uint8_t *lent[7];
    for (int k = 0; k < 7; k++)
        lent[k] = files[k];
    p.answer = (needs ? ref_needs : ref_print)(lent, lens, p.bytes, &p.len);
    return p;
}

/* Is it what stands in that file of the folder? */
static int is_due(const char *folder, const char *name,
                  const struct printed *p)
{
    size_t len;
    uint8_t *due = whole(folder, name, &len);
    int same = len == p->len && memcmp(due, p->bytes, len) == 0;
    free(due);
    return same;
}

static int is_there(const char *folder, const char *name)
{
    char path[4096];
    snprintf(path, sizeof path, "%s/%s", folder, name);
    FILE *f = fopen(path, "rb");
    if (f != NULL)
        fclose(f);
    return f != NULL;
}

static int check(const char *folder, uint8_t *const files[7],
                 const size_t lens[7])
{
    struct printed text = printed(files, lens, 0);
    struct printed needs = printed(files, lens, 1);
    int told = is_there(folder, "expected-needs");
    int same = is_due(folder, "expected", &text);
    int same_needs = !told || is_due(folder, "expected-needs", &needs);
    int agree = text.answer.number != 0 || runs_agree(files, lens);
    printf("%s: number %" PRIu32 " place %" PRIu64 ", %zu bytes, expected %s, "
           "runs %s, expected-needs %s\n", folder, text.answer.number,
           text.answer.place, text.len, same ? "same" : "DIFFERS",
           agree ? "agree" : "DISAGREE",
           !told ? "not there" : same_needs ? "same" : "DIFFERS");
    return same && same_needs && agree ? 0 : 1;
}

int main(int argc, char **argv)
{
    int checks = argc == 3 && strcmp(argv[1], "-c") == 0;
    int needs = argc == 3 && strcmp(argv[1], "--needs") == 0;
    if (argc != 2 + checks + needs) {
        fprintf(stderr, "show [-c | --needs] FOLDER\n");
        return 2;
    }
    const char *folder = argv[argc - 1];
    uint8_t *files[7];
    size_t lens[7];
    for (int k = 0; k < 7; k++)
        files[k] = whole(folder, names[k], &lens[k]);
    if (checks)
        return check(folder, files, lens);
    struct printed p = printed(files, lens, needs);
    fwrite(p.bytes, 1, p.len, stdout);
    return 0;
}
