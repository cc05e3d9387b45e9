/* Splicetuck for C: charts (state tables) to Instruction List, instruction words
 * to text and back, the run of a chart, of a program and of a chart's written
 * text, and tables from files of records.
 *
 * Of every call:
 * - It can be made with any content of the lent slices (only `on`, `q` and
 *   `last` of a block must be 0 or 1, as C's bool is); what is not right is
 *   refused by a number of document 01, and the refusals of a call are listed
 *   below in the order in which they are looked for. The first one found is
 *   the answer.
 * - A refused call writes nothing. An accepted call writes its result from the
 *   front of a slice and keeps the rest of the slice.
 * - A length counts numbers of the slice's type, not bytes and not rows. The
 *   pointer must lead to so many numbers; of a slice of length 0 it may be
 *   NULL. A slice that a call may write must not overlap any other. */
#ifndef SPLICETUCK_H
#define SPLICETUCK_H

#include <stdbool.h>
#include <stddef.h>
#include <stdint.h>

/* What a call answers. Document 01 has a table of the refusals:
 *    0 ACCEPTED       4 PRESET          8 LITERAL       12 ROOM
 *    1 SIZE           5 TIMER PAIR      9 IDLE TIMER    13 TEXT
 *    2 HIERARCHY      6 OUTPUT PAIR    10 OVERLAP       14 STATE
 *    3 INITIAL        7 MOVE           11 FLIP-FLOPS    15 SCANS
 *                                                       16 FIELD
 * number: 0 when accepted, else the refusal.
 * place:  0 when accepted, else where: the least failing row from 0; of ROOM
 *         the length needed; of TEXT the byte where the first impossible line
 *         begins or the index of the first impossible word, and the length if
 *         only lines or words are missing; 0 of SIZE, FLIP-FLOPS, STATE, SCANS.
 * length: what the call says when accepted, 0 when refused. */
struct splicetuck_answer {
    uint32_t number;
    uint64_t place;
    uint64_t length;
};

/* The tables are lent to seven calls, always as the same thirteen arguments:
 * step          scan step in ms, 1 to 1,000
 * inputs        how many inputs, at most 64
 * outputs       how many outputs, at most 64
 * states        two numbers a state: super-state, initial sub-state
 * moves         eleven a move: source, target, mark, eight literal places
 * presets       one a timer, in ms
 * timer_pairs   two a pair: timer from 1, state
 * output_pairs  two a pair: output from 1, state */

/* Checks the tables.
 * Refusals: 1 to 11 in this order. Writes nothing; length is 0. */
struct splicetuck_answer splicetuck_check(
    uint32_t step, uint32_t inputs, uint32_t outputs,
    const uint16_t *states, size_t states_len,
    const int16_t *moves, size_t moves_len,
    const uint32_t *presets, size_t presets_len,
    const uint16_t *timer_pairs, size_t timer_pairs_len,
    const uint16_t *output_pairs, size_t output_pairs_len);

/* What the check with a witness answers.
 * number, place: as in struct splicetuck_answer.
 * For OVERLAP:
 * earlier: the least earlier move that overlaps move `place`.
 * state: the lower of the two sources (the larger number), in which, and in
 * every leaf below it, both moves are enabled with the following on and off.
 * inputs_on, timers_on: what both moves together need on; inputs_off,
 * timers_off: what they need off. Input i is the bit of weight 2^(i-1), timer t
 * that of weight 2^(t-1); a timer is on when it is expired. What is in neither
 * set may be on or off. Timers are taken as free, whatever their presets.
 * All but number and place are 0 for every other number. */
struct splicetuck_witness {
    uint32_t number;
    uint64_t place;
    uint64_t earlier;
    uint64_t state;
    uint64_t inputs_on;
    uint64_t inputs_off;
    uint64_t timers_on;
    uint64_t timers_off;
};

/* Checks the tables as splicetuck_check does, and of an overlap tells the two
 * moves, where both are enabled and by what.
 * Refusals: 1 to 11 in this order. Writes nothing. */
struct splicetuck_witness splicetuck_check_witness(
    uint32_t step, uint32_t inputs, uint32_t outputs,
    const uint16_t *states, size_t states_len,
    const int16_t *moves, size_t moves_len,
    const uint32_t *presets, size_t presets_len,
    const uint16_t *timer_pairs, size_t timer_pairs_len,
    const uint16_t *output_pairs, size_t output_pairs_len);

/* Writes the chart's Instruction List.
 * Refusals: 1 to 11, then ROOM when text_len is below the bytes of the text,
 * with those bytes as its place.
 * Writes the text, which no NUL ends, to the front of text; length is its
 * bytes. */
struct splicetuck_answer splicetuck_write(
    uint32_t step, uint32_t inputs, uint32_t outputs,
    const uint16_t *states, size_t states_len,
    const int16_t *moves, size_t moves_len,
    const uint32_t *presets, size_t presets_len,
    const uint16_t *timer_pairs, size_t timer_pairs_len,
    const uint16_t *output_pairs, size_t output_pairs_len,
    uint8_t *text, size_t text_len);

/* Writes the text of a list of instruction words.
 * Refusals: TEXT with the index of a word, or words_len; then ROOM with the
 * bytes needed.
 * Writes the text, which no NUL ends, to the front of text; length is its
 * bytes. */
struct splicetuck_answer splicetuck_write_words(
    const uint32_t *words, size_t words_len,
    uint8_t *text, size_t text_len);

/* Reads a text of Instruction List.
 * Refusals: TEXT with the byte where a line begins, or text_len; then ROOM with
 * the words needed.
 * Writes the instruction words to the front of words; length is their
 * number. */
struct splicetuck_answer splicetuck_read(
    const uint8_t *text, size_t text_len,
    uint32_t *words, size_t words_len);

/* What a controller must lend to run a list of instruction words.
 * number, place: as in struct splicetuck_answer.
 * flip_flops: one more than the highest %MX named, 0 if none is.
 * blocks: the timer blocks declared. Both are 0 when refused. */
struct splicetuck_sizes {
    uint32_t number;
    uint64_t place;
    uint64_t flip_flops;
    uint64_t blocks;
};

/* Tells these sizes.
 * Refusals: TEXT with the index of a word, or words_len. Writes nothing. */
struct splicetuck_sizes splicetuck_sizes_of(
    const uint32_t *words, size_t words_len);

/* Tells how many numbers a state of the chart has.
 * Refusals: 1 to 11. Writes nothing; length is that number. */
struct splicetuck_answer splicetuck_state_length(
    uint32_t step, uint32_t inputs, uint32_t outputs,
    const uint16_t *states, size_t states_len,
    const int16_t *moves, size_t moves_len,
    const uint32_t *presets, size_t presets_len,
    const uint16_t *timer_pairs, size_t timer_pairs_len,
    const uint16_t *output_pairs, size_t output_pairs_len);

/* Runs the chart over all scans, from the lent state on.
 * state: the code of the remembered sub-state for each super-state by rising
 * number, then a value in ms for each timer; all zero is the start.
 * words_in: an input word a scan, input i the bit of weight 2^(i-1); bits above
 * the count have no effect.
 * Refusals: 1 to 11; STATE when state_len is not what splicetuck_state_length
 * tells, or a number is a code of no sub-state, or a timer value is not a whole
 * number of scan steps from 0 to N, or not 0 while the timer is idle; SCANS
 * when leaves_len or words_out_len differs from scans.
 * Writes the state after the last scan to state, and for each scan the active
 * leaf to leaves and the output word to words_out; length is scans. */
struct splicetuck_answer splicetuck_run_chart(
    uint32_t step, uint32_t inputs, uint32_t outputs,
    const uint16_t *states, size_t states_len,
    const int16_t *moves, size_t moves_len,
    const uint32_t *presets, size_t presets_len,
    const uint16_t *timer_pairs, size_t timer_pairs_len,
    const uint16_t *output_pairs, size_t output_pairs_len,
    uint32_t *state, size_t state_len,
    const uint64_t *words_in, size_t scans,
    uint16_t *leaves, size_t leaves_len,
    uint64_t *words_out, size_t words_out_len);

/* Reads one of the seven files of records: its bytes as a whole.
 * kind: 0 frame.csv, 1 states.csv, 2 moves.csv, 3 presets.csv,
 * 4 timerpairs.csv, 5 outputpairs.csv, 6 scans.csv. A record has 3, 2, 11, 1,
 * 2, 2 and 1 numbers, of 32, 16, 16 with a sign, 32, 16, 16 and 64 bits.
 * Refusals: SIZE for any other kind; FIELD with the number of the record from
 * 0, also 0 for a frame.csv of none, 1 for one of more, and 4,096 for a
 * scans.csv of more than 4,096; then ROOM with the numbers needed.
 * Writes the numbers, record after record, to the front of out, a negative
 * one of moves.csv in 64-bit two's complement: (int64_t)out[i] is the number.
 * length is how many numbers there are. */
struct splicetuck_answer splicetuck_read_records(
    uint32_t kind,
    const uint8_t *bytes, size_t bytes_len,
    uint64_t *out, size_t out_len);

/* What one scan of a chart answers.
 * number, place: as in struct splicetuck_answer.
 * leaf: the active leaf after the scan.
 * outputs: the output word after it, output o the bit of weight 2^(o-1). Both
 * are 0 when refused. */
struct splicetuck_step {
    uint32_t number;
    uint64_t place;
    uint16_t leaf;
    uint64_t outputs;
};

/* Runs the chart over one scan, from the lent state on.
 * state, word_in: as in splicetuck_run_chart, with the one input word.
 * Refusals: 1 to 11; STATE as in splicetuck_run_chart.
 * Writes the state after the scan to state. */
struct splicetuck_step splicetuck_step_chart(
    uint32_t step, uint32_t inputs, uint32_t outputs,
    const uint16_t *states, size_t states_len,
    const int16_t *moves, size_t moves_len,
    const uint32_t *presets, size_t presets_len,
    const uint16_t *timer_pairs, size_t timer_pairs_len,
    const uint16_t *output_pairs, size_t output_pairs_len,
    uint32_t *state, size_t state_len,
    uint64_t word_in);

/* A timer block: IN, PT, ET, Q and the IN of the last call. */
struct splicetuck_block {
    bool on;
    uint32_t pt;
    uint32_t et;
    bool q;
    bool last;
};

/* Runs a list of instruction words over all scans, from the lent controller on.
 * flip_flops: a byte of 0 or 1 for each %MX from %MX0; blocks: T1 first; all
 * zero is the start. words_in: an input word a scan, of which the instructions
 * read all 64 bits.
 * Refusals: SIZE when step is not 1 to 1,000; TEXT with the index of a word, or
 * words_len; STATE when flip_flops_len or blocks_len is not what
 * splicetuck_sizes_of tells, a flip-flop byte is not 0 or 1, or a block's et is
 * above its rung's time; SCANS when words_out_len differs from scans.
 * Writes flip_flops and blocks as the last scan leaves them, and for each scan
 * the output word to words_out; length is scans. */
struct splicetuck_answer splicetuck_run_program(
    uint32_t step,
    const uint32_t *words, size_t words_len,
    uint8_t *flip_flops, size_t flip_flops_len,
    struct splicetuck_block *blocks, size_t blocks_len,
    const uint64_t *words_in, size_t scans,
    uint64_t *words_out, size_t words_out_len);

/* What a scan answers: the number and place of the refusal, or 0 and 0, and the
 * output word, which is 0 on refusal. */
struct splicetuck_scan {
    uint32_t number;
    uint64_t place;
    uint64_t outputs;
};

/* Runs a list of instruction words over one scan, from the lent controller on;
 * everything is as in splicetuck_run_program, with one input word and its output
 * word in the answer.
 * Refusals: SIZE, TEXT, STATE. */
struct splicetuck_scan splicetuck_scan_program(
    uint32_t step,
    const uint32_t *words, size_t words_len,
    uint8_t *flip_flops, size_t flip_flops_len,
    struct splicetuck_block *blocks, size_t blocks_len,
    uint64_t word_in);

/* Writes the chart's text, reads that text back as instruction words, and runs
 * the words from cleared memory, one scan for each of words_in.
 * Refusals: 1 to 11; SCANS when leaves_len or words_out_len differs from scans;
 * ROOM with the text's length when text_len or words_len is below it: a text
 * never has more words than bytes.
 * Writes the text to the front of text and its words to the front of words, and
 * for each scan the leaf that the flip-flops show to leaves and the output word
 * to words_out; length is the text's. How many words there are is told by
 * splicetuck_read of that text. */
struct splicetuck_answer splicetuck_run_written(
    uint32_t step, uint32_t inputs, uint32_t outputs,
    const uint16_t *states, size_t states_len,
    const int16_t *moves, size_t moves_len,
    const uint32_t *presets, size_t presets_len,
    const uint16_t *timer_pairs, size_t timer_pairs_len,
    const uint16_t *output_pairs, size_t output_pairs_len,
    uint8_t *text, size_t text_len,
    uint32_t *words, size_t words_len,
    const uint64_t *words_in, size_t scans,
    uint16_t *leaves, size_t leaves_len,
    uint64_t *words_out, size_t words_out_len);

#endif
