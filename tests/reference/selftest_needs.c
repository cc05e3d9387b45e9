/* The page of needs: worked by hand, and on random tables against sets in
 * words. */
#include "selftest.h"

#include <inttypes.h>
#include <stdio.h>
#include <stdlib.h>
#include <string.h>

static uint8_t printed[REF_NEEDS_MOST + 1];

static const char *needs(const char *const texts[7])
{
    const uint8_t *files[7];
    size_t lens[7], n = 0;
    for (int i = 0; i < 7; i++) {
        files[i] = (const uint8_t *)texts[i];
        lens[i] = texts[i] == NULL ? 0 : strlen(texts[i]);
    }
    struct ref_answer a = ref_needs(files, lens, printed, &n);
    EXPECT(n <= REF_NEEDS_MOST);
    printed[n] = 0;
    EXPECT((a.number == 0) == (strstr((char *)printed, "REFUSED") == NULL));
    EXPECT(a.length == (a.number == 0 ? n : 0));
    return (char *)printed;
}

static void expect_needs(const char *due, const char *const texts[7], int line)
{
    const char *got = needs(texts);
    if (strcmp(got, due) != 0)
        printf("  got\n%s", got);
    expect_at(strcmp(got, due) == 0, "the page of needs", __FILE__, line);
}

/* due, then frame, states, moves, presets, timer pairs, output pairs, scans */
#define EXPECT_NEEDS(due, ...) \
    expect_needs((due), (const char *const[7]){__VA_ARGS__}, __LINE__)

#define HEAD "move,source and above,target,needs on,needs off\n"

/* The states of (e); a move with its first literals, three or none. */
#define STATES "0,1\n0,3\n0,0\n1,0\n1,0\n"
#define ROW(head, a, b, c) head "," a "," b "," c ",0,0,0,0,0\n"
#define NEEDS_OF(due, moves) \
    EXPECT_NEEDS(HEAD due, "100,3,0", STATES, moves, "300\n300\n", \
                 "1,1\n2,1\n", NULL, NULL)

static void test_examples_of_01(void)
{
    /* (e) */
    NEEDS_OF("0,3 1 0,4,%IX1,%IX2\n1,1 0,2,%IX2,-\n2,2 0,1,-,%IX2\nACCEPTED\n",
             ROW("3,4,0", "1", "-2", "0") ROW("1,2,0", "2", "0", "0")
             ROW("2,1,1", "-2", "0", "0"));
    /* (g) */
    NEEDS_OF("0,1 0,2,%IX2,-\n1,3 1 0,4,%IX1,-\n"
             "OVERLAP 0 1,3,-,%IX1 %IX2,-\nREFUSED,10,1\n",
             ROW("1,2,0", "2", "0", "0") ROW("3,4,0", "1", "0", "0"));
    /* (h) */
    EXPECT_NEEDS("REFUSED,8,0\n", "100,3,0", STATES,
                 ROW("3,4,0", "-32768", "0", "0"), NULL, NULL, NULL, NULL);
    /* the Lamp */
    EXPECT_NEEDS(HEAD "0,1 0,2,%IX1,-\n1,2 0,1,%IX2 T1.Q,-\nACCEPTED\n",
                 "100,2,1", "0,1\n0,0\n0,0\n", ROW("1,2,0", "1", "0", "0")
                 ROW("2,1,0", "2", "101", "0"), "250", "1,2", "1,2", "1\n2\n");
}

static void test_overlaps(void)
{
    /* no literals: always */
    NEEDS_OF("0,1 0,2,-,-\nACCEPTED\n", ROW("1,2,0", "0", "0", "0"));
    NEEDS_OF("0,1 0,2,-,-\n1,0,2,-,-\nOVERLAP 0 1,1,-,-,-\nREFUSED,10,1\n",
             ROW("1,2,0", "0", "0", "0") ROW("0,2,0", "0", "0", "0"));
    NEEDS_OF("0,1 0,2,-,%IX1\n1,3 1 0,4,-,%IX2\n"
             "OVERLAP 0 1,3,-,-,%IX1 %IX2\nREFUSED,10,1\n",
             ROW("1,2,0", "-1", "0", "0") ROW("3,4,0", "-2", "0", "0"));
    NEEDS_OF("0,1 0,2,%IX1,%IX3\n1,3 1 0,4,%IX2,-\n"
             "OVERLAP 0 1,3,-,%IX1 %IX2,%IX3\nREFUSED,10,1\n",
             ROW("1,2,0", "1", "-3", "0") ROW("3,4,0", "2", "0", "0"));
    /* timers that always agree are free all the same */
    NEEDS_OF("0,1 0,2,T1.Q,-\n1,3 1 0,4,-,T2.Q\n"
             "OVERLAP 0 1,3,-,T1.Q,T2.Q\nREFUSED,10,1\n",
             ROW("1,2,0", "101", "0", "0") ROW("3,4,0", "-102", "0", "0"));
    /* rising, inputs first, however they stand; what both need stands once */
    NEEDS_OF("0,1 0,2,%IX2 T2.Q,%IX3\n1,3 1 0,4,%IX1 %IX2,T1.Q\n"
             "OVERLAP 0 1,3,-,%IX1 %IX2 T2.Q,%IX3 T1.Q\nREFUSED,10,1\n",
             ROW("1,2,0", "102", "-3", "2") ROW("3,4,0", "2", "-101", "1"));
    /* one overlap is told, though there are more */
    NEEDS_OF("0,1 0,2,%IX1,-\n1,3 1 0,4,-,%IX1\n2,1 0,2,%IX2,-\n3,0,0,-,-\n"
             "OVERLAP 0 2,1,-,%IX1 %IX2,-\nREFUSED,10,2\n",
             ROW("1,2,0", "1", "0", "0") ROW("3,4,0", "-1", "0", "0")
             ROW("1,2,0", "2", "0", "0") ROW("0,0,0", "0", "0", "0"));
}

/* Only the line, or the line below the table. */
static void test_refused(void)
{
    const char *good = ROW("1,2,0", "1", "0", "0");
    EXPECT_NEEDS("REFUSED,16,0\n", NULL, NULL, NULL, NULL, NULL, NULL, NULL);
    EXPECT_NEEDS("REFUSED,16,1\n", "100,3,0", STATES, good, NULL, NULL, NULL,
                 "1\nx\n");
    EXPECT_NEEDS("REFUSED,1,0\n", "0,3,0", STATES, good, NULL, NULL, NULL, NULL);
    EXPECT_NEEDS("REFUSED,2,1\n", "100,3,0", "0,1\n1,0", good, NULL, NULL, NULL,
                 NULL);
    EXPECT_NEEDS("REFUSED,3,0\n", "100,3,0", "0,2\n0,0", good, NULL, NULL, NULL,
                 NULL);
    EXPECT_NEEDS("REFUSED,4,0\n", "100,3,0", STATES, good, "0", NULL, NULL, NULL);
    EXPECT_NEEDS("REFUSED,5,0\n", "100,3,0", STATES, good, "1", "2,0", NULL, NULL);
    EXPECT_NEEDS("REFUSED,6,0\n", "100,3,0", STATES, good, "1", NULL, "1,0", NULL);
    EXPECT_NEEDS("REFUSED,7,1\n", "100,3,0", STATES,
                 ROW("1,2,0", "1", "0", "0") ROW("1,5,0", "1", "0", "0"), NULL,
                 NULL, NULL, NULL);
    EXPECT_NEEDS("REFUSED,8,1\n", "100,3,0", STATES,
                 ROW("1,2,0", "1", "0", "0") ROW("1,2,0", "4", "0", "0"), NULL,
                 NULL, NULL, NULL);
    /* IDLE TIMER, though the moves overlap as well */
    NEEDS_OF("0,1 0,2,-,-\n1,2 0,2,-,T1.Q\n2,0,0,-,-\nREFUSED,9,1\n",
             ROW("1,2,0", "0", "0", "0") ROW("2,2,0", "-101", "0", "0")
             ROW("0,0,0", "0", "0", "0"));
    /* no moves, no ROOM: nothing is written */
    EXPECT_NEEDS(HEAD "ACCEPTED\n", "100,3,0", "0,0", NULL, NULL, NULL, NULL,
                 "1\n");
    char states[256 * 8], *at = states;
    for (unsigned s = 0; s < 256; s++)
        at += sprintf(at, "%u,%u\n", s == 0 ? 0 : (s - 1) / 3,
                      s < 85 ? 3 * s + 1 : 0);
    EXPECT_NEEDS(HEAD "0,255 84 27 8 2 0,0,%IX1,-\nREFUSED,11,0\n", "100,3,0",
                 states, ROW("255,0,0", "1", "0", "0"), NULL, NULL, NULL, NULL);
}

/* A text above 65,536 bytes is ROOM without the option, and no matter here. */
static void test_no_room(void)
{
    char states[202 * 4 + 1], *at = states;
    char *pairs = must_alloc(2048 * 8), *more = pairs;
    for (unsigned s = 0; s < 201; s++)
        at += sprintf(at, "0,%d\n", s == 0);
    for (unsigned i = 0; i < 2048; i++)
        more += sprintf(more, "%u,%u\n", i / 200 + 1, i % 200 + 1);
    const char *moves = ROW("7,2,0", "1", "0", "0");
    EXPECT_NEEDS(HEAD "0,7 0,2,%IX1,-\nACCEPTED\n", "1,1,64", states, moves,
                 NULL, NULL, pairs, NULL);
    const char *const texts[7] = {"1,1,64", states, moves, "", "", pairs, ""};
    const uint8_t *files[7];
    size_t lens[7], n;
    for (int k = 0; k < 7; k++) {
        files[k] = (const uint8_t *)texts[k];
        lens[k] = strlen(texts[k]);
    }
    uint8_t *text = must_alloc(REF_PRINT_MOST);
    EXPECT(ref_print(files, lens, text, &n).number == REF_ROOM);
    free(text);
    free(pairs);
}

/* 512 moves at depth 8 with eight literals each, and an overlap of sixteen. */
static void test_longest(void)
{
    static char states[256 * 8 + 1], moves[512 * 64];
    static const char end[] =
        "511,255 106 105 104 103 102 101 100 0,255,"
        "%IX50 %IX51 %IX52 %IX53 %IX54 %IX55 %IX56 %IX57,-\n"
        "OVERLAP 384 511,255,-,"
        "%IX50 %IX51 %IX52 %IX53 %IX54 %IX55 %IX56 %IX57 T32.Q,"
        "%IX58 %IX59 %IX60 %IX61 %IX62 %IX63 %IX64\nREFUSED,10,511\n";
    char presets[32 * 2 + 1], pairs[32 * 5 + 1], *p = presets, *q = pairs;
    char *at = states, *row = moves;
    for (unsigned s = 0; s < 256; s++) /* 107 to 255 have depth 8 */
        at += sprintf(at, "%u,%u\n", s <= 100 ? 0 : s <= 106 ? s - 1 : 106,
                      s == 0 ? 1 : s >= 100 && s <= 106 ? s + 1 : 0);
    for (unsigned m = 0; m < 511; m++) { /* 128 a source, over seven inputs */
        row += sprintf(row, "%u,255,0", 252 + m / 128);
        for (int i = 0; i < 7; i++)
            row += sprintf(row, ",%d", m >> i & 1 ? 64 - i : i - 64);
        row += sprintf(row, ",132\n");
    }
    sprintf(row, "255,255,0,57,56,55,54,53,52,51,50\n");
    for (unsigned n = 1; n <= 32; n++) {
        p += sprintf(p, "1\n");
        q += sprintf(q, "%u,0\n", n);
    }
    const char *got = needs((const char *const[7]){"1,64,0", states, moves,
                                                   presets, pairs, NULL, NULL});
    size_t len = strlen(got);
    EXPECT(len > 44000 && strcmp(got + len - (sizeof end - 1), end) == 0);
    EXPECT(strchr(end, '\n') + 1 - end == 92);
}

/* ---- Random tables, sets in words ---- */

static char *put_set(char *at, uint64_t inputs, uint64_t timers)
{
    char *begin = at;
    for (unsigned i = 0; i < 64; i++)
        if (inputs >> i & 1)
            at += sprintf(at, " %%IX%u", i + 1);
    for (unsigned n = 0; n < 32; n++)
        if (timers >> n & 1)
            at += sprintf(at, " T%u.Q", n + 1);
    if (at == begin)
        return at + sprintf(at, "-");
    memmove(begin, begin + 1, (size_t)(at - begin)); /* no space before */
    return at - 1;
}

/* What a move needs, as a witness of it alone. */
static struct ref_witness sets_of(const int16_t *row)
{
    struct ref_witness w = {0};
    for (int k = 3; k < 11; k++) {
        int size = abs(row[k]);
        if (size >= 101)
            *(row[k] > 0 ? &w.timers_on : &w.timers_off) |=
                UINT64_C(1) << (size - 101);
        else if (size > 0)
            *(row[k] > 0 ? &w.inputs_on : &w.inputs_off) |=
                UINT64_C(1) << (size - 1);
    }
    return w;
}

static char *put_sets(char *at, struct ref_witness w)
{
    at = put_set(at, w.inputs_on, w.timers_on);
    *at++ = ',';
    at = put_set(at, w.inputs_off, w.timers_off);
    return at + sprintf(at, "\n");
}

static void page_due(const struct draft *d, char *at)
{
    struct ref_witness w = ref_check_witness(&d->t);
    bool table = w.number == 0 || w.number > REF_LITERAL;
    if (table)
        at += sprintf(at, HEAD);
    for (size_t m = 0; table && m < d->t.moves_len / 11; m++) {
        const int16_t *row = d->moves + 11 * m;
        at += sprintf(at, "%zu,%d", m, row[0]);
        for (int s = row[0]; s != 0; s = d->states[2 * s])
            at += sprintf(at, " %u", (unsigned)d->states[2 * s]);
        at += sprintf(at, ",%d,", row[1]);
        at = put_sets(at, sets_of(row));
    }
    if (w.number == REF_OVERLAP) {
        at += sprintf(at, "OVERLAP %" PRIu64 " %" PRIu64 ",%" PRIu64 ",-,",
                      w.earlier, w.place, w.state);
        at = put_sets(at, w);
    }
    if (w.number == 0)
        sprintf(at, "ACCEPTED\n");
    else
        sprintf(at, "REFUSED,%" PRIu32 ",%" PRIu64 "\n", w.number, w.place);
}

/* A table as a file, with so many numbers a record. */
#define FILE_OF(at, numbers, len, row) \
    do { \
        *(at) = 0; \
        for (size_t i = 0; i < (len); i++) \
            (at) += sprintf((at), "%ld%c", (long)(numbers)[i], \
                            i % (row) == (row) - 1u ? '\n' : ','); \
    } while (0)

static void expect_page(const struct draft *d)
{
    static char due[1 << 15], files[6][1 << 14];
    char *at[6];
    for (int k = 0; k < 6; k++)
        at[k] = files[k];
    const uint32_t frame[3] = {d->t.step, d->t.inputs, d->t.outputs};
    FILE_OF(at[0], frame, 3, 3);
    FILE_OF(at[1], d->states, d->t.states_len, 2);
    FILE_OF(at[2], d->moves, d->t.moves_len, 11);
    FILE_OF(at[3], d->presets, d->t.presets_len, 1);
    FILE_OF(at[4], d->timer_pairs, d->t.timer_pairs_len, 2);
    FILE_OF(at[5], d->output_pairs, d->t.output_pairs_len, 2);
    page_due(d, due);
    EXPECT_NEEDS(due, files[0], files[1], files[2], files[3], files[4],
                 files[5], NULL);
}

static void test_pages(void)
{
    unsigned seen[17] = {0};
    for (int r = 0; r < 2000; r++) {
        unsigned n = 1 + below(12);
        struct draft *d = any_frame(n);
        for (unsigned moves = below(8); moves > 0; moves--)
            any_move(d, n, below(4));
        for (size_t m = 2; m < d->t.moves_len; m += 11)
            d->moves[m] = (int16_t)(d->moves[m] && once_in(9));
        expect_page(d);
        seen[ref_check(&d->t).number]++;
        free(d);
    }
    EXPECT(seen[0] > 200 && seen[REF_MOVE] > 50 && seen[REF_IDLE_TIMER] > 100
           && seen[REF_OVERLAP] > 200);
    printf("pages of needs: %u accepted, %u MOVE, %u IDLE TIMER, %u OVERLAP\n",
           seen[0], seen[REF_MOVE], seen[REF_IDLE_TIMER], seen[REF_OVERLAP]);
}

void test_needs(void)
{
    test_examples_of_01();
    test_overlaps();
    test_refused();
    test_no_room();
    test_longest();
    test_pages();
}
