/* One case of a program over a lent controller. */
#include "program.h"

#include <stdlib.h>
#include <string.h>

/* Random bytes stay where a block has no field. */
static struct lent lend_blocks(const struct ref_block *from, size_t len)
{
    struct splicetuck_block blocks[MOST_LENT_BLOCKS];
    any_bytes(blocks, sizeof blocks);
    for (size_t i = 0; i < len; i++) {
        blocks[i].on = from[i].in != 0;
        blocks[i].pt = from[i].pt;
        blocks[i].et = from[i].et;
        blocks[i].q = from[i].q != 0;
        blocks[i].last = from[i].last_in != 0;
    }
    return lend(blocks, len * sizeof blocks[0]);
}

void make_program(struct program *p)
{
    p->step = any_step();
    p->list = any_words(6);
    any_controller(&p->list, p->step, &p->first);
    memcpy(p->after, p->first.blocks, sizeof p->after);
    p->words = lend(p->list.words, p->list.len * sizeof *p->list.words);
    p->flip_flops = lend_twice(p->first.flip_flops, p->first.flip_flops_len);
    p->blocks = lend_blocks(p->first.blocks, p->first.blocks_len);
}

/* A bool is compared as the byte it is stored in: the product must not leave
 * another byte than 0 or 1 there. */
static void expect_bool(const char *field, size_t block, const bool *got,
                        uint8_t due)
{
    uint8_t byte;
    memcpy(&byte, got, 1);
    if (byte != due)
        report("blocks[%zu].%s is %u, should be %u", block, field,
               (unsigned)byte, (unsigned)due);
}

static void expect_time(const char *field, size_t block, uint32_t got,
                        uint32_t due)
{
    if (got != due)
        report("blocks[%zu].%s is %lu, should be %lu", block, field,
               (unsigned long)got, (unsigned long)due);
}

/* After a refusal every byte counts; after scans those between the fields are
 * the product's own affair. */
static void expect_blocks(const struct program *p, uint32_t number)
{
    const struct splicetuck_block *got = p->blocks.at;
    if (number != REF_ACCEPTED) {
        expect_kept("blocks", &p->blocks);
        return;
    }
    for (size_t i = 0; i < p->first.blocks_len; i++) {
        expect_bool("on", i, &got[i].on, p->after[i].in);
        expect_time("pt", i, got[i].pt, p->after[i].pt);
        expect_time("et", i, got[i].et, p->after[i].et);
        expect_bool("q", i, &got[i].q, p->after[i].q);
        expect_bool("last", i, &got[i].last, p->after[i].last_in);
    }
    expect_guards("blocks", &p->blocks);
}

void expect_program(const struct program *p, uint32_t number)
{
    expect_same("flip_flops", &p->flip_flops);
    expect_blocks(p, number);
    expect_kept("words", &p->words);
}

void show_program(const struct program *p)
{
    show_number("step", p->step);
    show_u32("words", p->list.words, p->list.len);
    show_u8("flip_flops", p->first.flip_flops, p->first.flip_flops_len);
    show_blocks("blocks", p->first.blocks, p->first.blocks_len);
}

void count_program(const struct program *p, struct event *events)
{
    const uint8_t *flip_flops = p->flip_flops.reference;
    for (size_t i = 0; i < p->first.blocks_len; i++) {
        const struct ref_block *b = &p->after[i];
        events[EXPIRED].times += b->q && !p->first.blocks[i].q;
        events[GROWN].times += b->et > p->first.blocks[i].et && !b->q;
    }
    for (size_t i = 0; i < p->first.flip_flops_len; i++)
        events[SET].times += flip_flops[i] != p->first.flip_flops[i];
}

void end_program(struct program *p)
{
    take_back(&p->words);
    take_back(&p->blocks);
    take_both_back(&p->flip_flops);
    free(p->list.words);
}
