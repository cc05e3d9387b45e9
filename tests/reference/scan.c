/* The run of the instructions on a lent controller. */
#include "tables.h"
#include "words.h"

struct controller {
    uint8_t *flip_flops;
    struct ref_block *blocks;
    uint32_t step;
    uint64_t input, output;
    bool result;   /* IL's one result */
    bool aside;    /* the result that OR( put aside */
    uint32_t time; /* what LD of a time loaded */
};

static bool tested(const struct controller *k, uint32_t operand)
{
    if (operand <= MOST_MX)
        return k->flip_flops[operand] != 0;
    if (operand <= BASE_IX + MOST_IX)
        return (k->input >> (operand - BASE_IX - 1) & 1) != 0;
    if (operand <= BASE_Q + MOST_BLOCKS)
        return k->blocks[operand - BASE_Q - 1].q != 0;
    return operand == OPERAND_TRUE;
}

static void store(struct controller *k, uint32_t operand)
{
    if (operand <= MOST_MX) {
        k->flip_flops[operand] = k->result;
    } else if (operand <= BASE_QX + MOST_QX) {
        uint64_t bit = UINT64_C(1) << (operand - BASE_QX - 1);
        k->output = k->result ? k->output | bit : k->output & ~bit;
    } else if (operand <= BASE_IN + MOST_BLOCKS) {
        k->blocks[operand - BASE_IN - 1].in = k->result;
    } else {
        k->blocks[operand - BASE_PT - 1].pt = k->time;
    }
}

/* "TON: IN off gives ET 0, Q off; IN on after off gives ET 0; IN on after on
 * adds one scan step, up to PT; Q when ET reaches PT." */
static void call(struct ref_block *b, uint32_t step)
{
    if (b->in == 0 || b->last_in == 0)
        b->et = 0;
    else
        b->et = b->et + step < b->pt ? b->et + step : b->pt;
    b->q = b->in != 0 && b->et >= b->pt;
    b->last_in = b->in;
}

static void obey(struct controller *k, uint32_t word)
{
    uint32_t operand = ref_operand(word);
    switch ((enum operator)ref_operator(word)) {
    case OP_LD: k->result = tested(k, operand); break;
    case OP_LDN: k->result = !tested(k, operand); break;
    case OP_AND: k->result = k->result && tested(k, operand); break;
    case OP_ANDN: k->result = k->result && !tested(k, operand); break;
    case OP_OR: k->aside = k->result; break;
    case OP_CLOSE: k->result = k->aside || k->result; break;
    case OP_ST: store(k, operand); break;
    /* "S and R act only on a true result." */
    case OP_S: if (k->result) k->flip_flops[operand] = 1; break;
    case OP_R: if (k->result) k->flip_flops[operand] = 0; break;
    case OP_CAL: call(&k->blocks[operand - BASE_T - 1], k->step); break;
    case OP_LD_TIME: k->time = operand; break;
    }
}

static uint64_t scan(struct controller *k, const uint32_t *words, size_t n,
                     uint64_t input)
{
    k->input = input;
    k->output = 0; /* "an output the program never stores is off" */
    for (size_t i = 0; i < n; i++)
        obey(k, words[i]);
    return k->output;
}

/* "byte not 0 or 1, flip-flop bytes not one more than the highest %MX the
 * program names (0 if none), blocks not as many as declared, block with ET
 * above its rung's time" */
static bool lent_well(const uint32_t *words, size_t n,
                      const struct ref_prefix *p,
                      const uint8_t *flip_flops, size_t flip_flops_len,
                      const struct ref_block *blocks, size_t blocks_len)
{
    if (flip_flops_len != p->mx || blocks_len != p->done)
        return false;
    for (size_t i = 0; i < flip_flops_len; i++)
        if (flip_flops[i] > 1)
            return false;
    size_t rung = 0; /* timer rungs rise from T1, and each has one time */
    for (size_t i = 0; i < n; i++)
        if (ref_operator(words[i]) == OP_LD_TIME
            && blocks[rung++].et > ref_operand(words[i]))
            return false;
    return true;
}

struct ref_answer ref_program_run(const uint32_t *words, size_t n,
                                  uint32_t step,
                                  uint8_t *flip_flops, size_t flip_flops_len,
                                  struct ref_block *blocks, size_t blocks_len,
                                  const uint64_t *inputs, size_t scans,
                                  uint64_t *outputs, size_t outputs_len)
{
    struct ref_prefix p;
    if (step < 1 || step > MOST_STEP)
        return ref_refused(REF_SIZE, 0);
    struct ref_answer answer = ref_read_words(words, n, &p);
    if (answer.number != REF_ACCEPTED)
        return answer;
    if (!lent_well(words, n, &p, flip_flops, flip_flops_len, blocks,
                   blocks_len))
        return ref_refused(REF_STATE, 0);
    if (outputs_len != scans)
        return ref_refused(REF_SCANS, 0);
    struct controller k = {.flip_flops = flip_flops, .blocks = blocks,
                           .step = step};
    for (size_t i = 0; i < scans; i++)
        outputs[i] = scan(&k, words, n, inputs[i]);
    return ref_accepted(scans);
}

struct ref_answer ref_program_scan(const uint32_t *words, size_t n,
                                   uint32_t step,
                                   uint8_t *flip_flops, size_t flip_flops_len,
                                   struct ref_block *blocks, size_t blocks_len,
                                   uint64_t input, uint64_t *output)
{
    return ref_program_run(words, n, step, flip_flops, flip_flops_len, blocks,
                           blocks_len, &input, 1, output, 1);
}
