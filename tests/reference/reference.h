/* Reference implementation of the chart and Instruction List rules ("01").
 *
 * Every call gives one `struct ref_answer`. A refused call leaves every lent
 * array untouched; an accepted one writes from the front and keeps the rest.
 * Arrays of length 0 may be NULL. Lent arrays must not overlap. */
#ifndef REFERENCE_H
#define REFERENCE_H

#include <stddef.h>
#include <stdint.h>

/* "Refusals, in the order of checking": 01's numbers. */
enum ref_number {
    REF_ACCEPTED = 0,
    REF_SIZE = 1,
    REF_HIERARCHY = 2,
    REF_INITIAL = 3,
    REF_PRESET = 4,
    REF_TIMER_PAIR = 5,
    REF_OUTPUT_PAIR = 6,
    REF_MOVE = 7,
    REF_LITERAL = 8,
    REF_IDLE_TIMER = 9,
    REF_OVERLAP = 10,
    REF_FLIP_FLOPS = 11,
    REF_ROOM = 12,
    REF_TEXT = 13,
    REF_STATE = 14,
    REF_SCANS = 15,
    REF_FIELD = 16
};

/* number: 0 to 16. place: as 01's table says (0 when accepted).
 * length: how much was written, in the units of the call; 0 on refusal. */
struct ref_answer {
    uint32_t number;
    uint64_t place;
    uint64_t length;
};

/* The tables, lent flat. Lengths are in numbers, not rows; any content and any
 * length may be lent. */
struct ref_tables {
    const uint16_t *states;       /* super-state, initial sub-state */
    size_t states_len;
    const int16_t *moves;         /* source, target, mark, eight literal places */
    size_t moves_len;
    const uint32_t *presets;      /* one a timer */
    size_t presets_len;
    const uint16_t *timer_pairs;  /* timer, state */
    size_t timer_pairs_len;
    const uint16_t *output_pairs; /* output, state */
    size_t output_pairs_len;
    uint32_t step, inputs, outputs;
};

/* A timer block. Of the three bools 0 is off and anything else is on; a scan
 * leaves 0 or 1. last_in is the IN of the block's last call. */
struct ref_block {
    uint8_t in;
    uint32_t pt;
    uint32_t et;
    uint8_t q;
    uint8_t last_in;
};

/* Refusals 1 to 11, or accepted with length 0. */
struct ref_answer ref_check(const struct ref_tables *tables);

/* The same, and of an OVERLAP what shows it. earlier: the least earlier move
 * that overlaps move `place`. state: the lower of the two sources. inputs_on and
 * timers_on: what both moves together need on, the other two what they need
 * off; input i, timer n the bit of weight 2^(i-1), 2^(n-1). All are 0 for every
 * other number. */
struct ref_witness {
    uint32_t number;
    uint64_t place;
    uint64_t earlier, state;
    uint64_t inputs_on, inputs_off;
    uint64_t timers_on, timers_off;
};

struct ref_witness ref_check_witness(const struct ref_tables *tables);

/* The chart's text. 1 to 11, then ROOM with the bytes needed; else length is
 * the bytes written. */
struct ref_answer ref_write_tables(const struct ref_tables *tables,
                                   uint8_t *out, size_t out_len);

/* The text of a list of instruction words. TEXT with a word's index, then ROOM
 * with the bytes needed; else length is the bytes written. */
struct ref_answer ref_write_words(const uint32_t *words, size_t n,
                                  uint8_t *out, size_t out_len);

/* The words of a text of n bytes. TEXT with a byte, then ROOM with the words
 * needed; else length is the words written. */
struct ref_answer ref_read_text(const uint8_t *text, size_t n,
                                uint32_t *out, size_t out_len);

/* What a controller for these words must lend: "one more than the highest %MX
 * the program names (0 if none)" and the blocks declared. TEXT, or accepted
 * with length 0. */
struct ref_answer ref_controller_size(const uint32_t *words, size_t n,
                                      uint64_t *flip_flop_bytes,
                                      uint64_t *blocks);

/* 1 to 11; else length is how many numbers a chart state has: a code for each
 * super-state by rising number, then a value in ms for each timer. */
struct ref_answer ref_state_length(const struct ref_tables *tables);

/* Runs the chart over all scans from the lent state and updates it. 1 to 11,
 * STATE, SCANS; else length is the number of scans. */
struct ref_answer ref_chart_run(const struct ref_tables *tables,
                                uint32_t *state, size_t state_len,
                                const uint64_t *inputs, size_t scans,
                                uint16_t *leaves, size_t leaves_len,
                                uint64_t *outputs, size_t outputs_len);

/* One scan of the same. 1 to 11, STATE; else length is 1. */
struct ref_answer ref_chart_step(const struct ref_tables *tables,
                                 uint32_t *state, size_t state_len,
                                 uint64_t input,
                                 uint16_t *leaf, uint64_t *output);

/* The reading of demand 3: leaf and outputs after each scan from the start,
 * from the inputs and the list of earlier leaves alone. 1 to 11, SCANS; else
 * length is the number of scans. */
struct ref_answer ref_history(const struct ref_tables *tables,
                              const uint64_t *inputs, size_t scans,
                              uint16_t *leaves, size_t leaves_len,
                              uint64_t *outputs, size_t outputs_len);

/* The leaf that %MX0 to %MX(B - 1) code. 1 to 11; else *leaf is set and length
 * is 1. Total: a byte beyond len is off, a byte other than 0 is on, and a code
 * of no sub-state is read as code 0, the initial sub-state. */
struct ref_answer ref_leaf(const struct ref_tables *tables,
                           const uint8_t *flip_flops, size_t len,
                           uint16_t *leaf);

/* Runs the words over all scans with the lent controller. SIZE (of the scan
 * step), TEXT, STATE, SCANS; else length is the number of scans. */
struct ref_answer ref_program_run(const uint32_t *words, size_t n,
                                  uint32_t step,
                                  uint8_t *flip_flops, size_t flip_flops_len,
                                  struct ref_block *blocks, size_t blocks_len,
                                  const uint64_t *inputs, size_t scans,
                                  uint64_t *outputs, size_t outputs_len);

/* One scan of the same. SIZE, TEXT, STATE; else length is 1. */
struct ref_answer ref_program_scan(const uint32_t *words, size_t n,
                                   uint32_t step,
                                   uint8_t *flip_flops, size_t flip_flops_len,
                                   struct ref_block *blocks, size_t blocks_len,
                                   uint64_t input, uint64_t *output);

/* The seven files, "in the order of the program section". */
enum ref_kind {
    REF_FRAME = 0,       /* one record of 3 uint32_t: step, inputs, outputs */
    REF_STATES = 1,      /* 2 uint16_t a record */
    REF_MOVES = 2,       /* 11 int16_t */
    REF_PRESETS = 3,     /* 1 uint32_t */
    REF_TIMERPAIRS = 4,  /* 2 uint16_t */
    REF_OUTPUTPAIRS = 5, /* 2 uint16_t */
    REF_SCANWORDS = 6    /* 1 uint64_t, at most 4,096 records */
};

/* The numbers of one file, written flat to an array of the kind's own type (as
 * listed above) that has room for out_len numbers. FIELD with the record's
 * number, then ROOM with the numbers needed; else length is the numbers
 * written. */
struct ref_answer ref_read_records(enum ref_kind kind,
                                   const uint8_t *bytes, size_t n,
                                   void *out, size_t out_len);

/* The most that ref_print writes: 65,536 bytes of text and 4,096 lines of at
 * most 30 bytes ("4096,255,18446744073709551615" and LF). */
#define REF_PRINT_MOST ((size_t)65536 + 4096 * 30)

/* All that the program prints on standard output for the contents of the seven
 * files: the text and a line a scan, or one REFUSED line. `out` must have room
 * for REF_PRINT_MOST bytes and *out_len is set to the bytes printed, refused or
 * not. The answer is the program's: 0, or the number and place it printed. */
struct ref_answer ref_print(const uint8_t *const files[7],
                            const size_t lens[7],
                            uint8_t *out, size_t *out_len);

/* The most that ref_needs writes: the first line of 48 bytes, 512 moves of at
 * most 92 ("511", nine states up to the root, a target of three digits, eight
 * names of five bytes), an OVERLAP line of at most 118 (sixteen names) and the
 * last one of at most 15. */
#define REF_NEEDS_MOST ((size_t)48 + 512 * 92 + 118 + 15)

/* All that the program prints on standard output with --needs: what each move
 * needs on and off, an overlap that refuses the chart, and the answer. Of FIELD
 * and 1 to 8 only one REFUSED line. `out` must have room for REF_NEEDS_MOST
 * bytes and *out_len is set to the bytes printed, refused or not. The answer is
 * the program's: 0, or the number and place it printed; no ROOM. */
struct ref_answer ref_needs(const uint8_t *const files[7],
                            const size_t lens[7],
                            uint8_t *out, size_t *out_len);

#endif
