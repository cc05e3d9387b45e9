/* Records, and what the program prints. */
#include "selftest.h"

#include <stdio.h>
#include <stdlib.h>
#include <string.h>

/* Reads with an exact copy, so that a read beyond the end is seen. */
static struct ref_answer read_n(enum ref_kind kind, const char *bytes, size_t n,
                                void *out, size_t out_len)
{
    uint8_t *copy = must_alloc(n);
    memcpy(copy, bytes, n);
    struct ref_answer a = ref_read_records(kind, copy, n, out, out_len);
    free(copy);
    return a;
}

static void expect_field(enum ref_kind kind, const char *text, long place,
                         int line)
{
    uint64_t out[64];
    memset(out, 0x5a, sizeof out);
    struct ref_answer a = read_n(kind, text, strlen(text), out, 64);
    if (place < 0) {
        expect_at(a.number == REF_ACCEPTED, text, __FILE__, line);
    } else {
        expect_at(same(a, REF_FIELD, (uint64_t)place, 0), text, __FILE__, line);
        expect_at(out[0] == UINT64_C(0x5a5a5a5a5a5a5a5a), "kept", __FILE__,
                  line);
    }
}
#define GOOD(kind, text) expect_field((kind), (text), -1, __LINE__)
#define FIELD(kind, text, place) expect_field((kind), (text), (place), __LINE__)

/* No decimal, alone and as a later record. Before a LF its last CR is part of
 * the record's end and no longer bare. */
static void expect_bad(const char *bad)
{
    char later[80] = "7\r\n0\n\"5\"\r\n";
    size_t head = strlen(later);
    bool good = strcmp(bad, "1\r") == 0 || strcmp(bad, "\"1\"\r") == 0;
    FIELD(REF_PRESETS, bad, *bad == 0 ? -1 : 0); /* "" is no record */
    strcat(later, bad);
    strcat(later, "\n");
    FIELD(REF_SCANWORDS, later + head, good ? -1 : 0);
    strcat(later, "9\n");
    FIELD(REF_PRESETS, later, good ? -1 : 3);
}

static void test_decimals(void)
{
    static const char *const bad[] = {
        "-0", "+1", "01", "00", "", " 1", "1 ", "\t1", "1.0", "1e1", "0x1", "-",
        "--1", "-01", "1-", "\"1", "\"1\"2", "\"1\"\"", "1\"", "\"\"", "\" 1\"",
        "\"1\n\"", "\"1,\"", "\"1\"\"2\"", "1\r", "\r1", "1\r\r", "\"1\"\r",
        "\"1\" ", " \"1\"", "\xef\xbb\xbf\61", "one", "\"", "\"\"\"", "'1'",
        "99999999999999999999999", "1;2", "1,", ",1", ",", "\"01\"", "\"-0\"",
    };
    for (size_t i = 0; i < sizeof bad / sizeof bad[0]; i++)
        expect_bad(bad[i]);
    uint32_t out[4];
    EXPECT_REFUSED(read_n(REF_PRESETS, "1\n\0\n", 4, out, 4), REF_FIELD, 1);
    EXPECT_REFUSED(read_n(REF_PRESETS, "1\0", 2, out, 4), REF_FIELD, 0);
}

static void test_ranges(void)
{
    GOOD(REF_PRESETS, "4294967295");
    FIELD(REF_PRESETS, "4294967296", 0);
    FIELD(REF_PRESETS, "-1", 0);
    GOOD(REF_SCANWORDS, "18446744073709551615");
    FIELD(REF_SCANWORDS, "18446744073709551616", 0);
    FIELD(REF_SCANWORDS, "-1", 0);
    FIELD(REF_SCANWORDS, "1,2", 0);
    GOOD(REF_STATES, "65535,0\n0,65535");
    FIELD(REF_STATES, "0,65535\n0,65536", 1);
    FIELD(REF_STATES, "0,-1", 0);
    FIELD(REF_STATES, "0,0\n0,0,0\n", 1);
    FIELD(REF_STATES, "0\n0,0\n", 0);
    FIELD(REF_STATES, "0,\n0\n", 0);
    FIELD(REF_TIMERPAIRS, "1,1\n\n", 1);
    FIELD(REF_OUTPUTPAIRS, "1,1\r\n\r\n", 1);
    GOOD(REF_OUTPUTPAIRS, "\"1\",1\r\n\"2\",\"3\"");
    GOOD(REF_FRAME, "4294967295,0,4294967295\n");
    FIELD(REF_FRAME, "", 0);
    FIELD(REF_FRAME, "\n", 0);
    FIELD(REF_FRAME, "1,1,1\n\n", 1);
    FIELD(REF_FRAME, "1,1,1\n1,1,1\n", 1);
    FIELD(REF_FRAME, "1,1,1,1\n1,1,1\n", 0);
    FIELD(REF_FRAME, "1,1\n", 0);
    GOOD(REF_MOVES, "0,-1,-32768,32767,0,0,0,0,0,0,0");
    FIELD(REF_MOVES, "0,0,-32769,0,0,0,0,0,0,0,0", 0);
    FIELD(REF_MOVES, "0,0,32768,0,0,0,0,0,0,0,0", 0);
    FIELD(REF_MOVES, "0,0,-0,0,0,0,0,0,0,0,0", 0);
    FIELD(REF_MOVES, "0,0,0,0,0,0,0,0,0,0", 0);
    FIELD(REF_MOVES, "0,0,0,0,0,0,0,0,0,0,0\n0,0,0,0,0,0,0,0,0,0,0,0", 1);
}

static void test_values(void)
{
    int16_t moves[23];
    uint16_t pairs[5] = {9, 9, 9, 9, 9};
    uint64_t scans[2] = {7, 7};
    const char *text = "0,-1,-32768,32767,\"-5\",6,7,8,9,10,11\r\n"
                       "1,2,3,4,5,6,7,8,9,10,\"-11\"\n";
    moves[22] = 99;
    EXPECT_REFUSED(read_n(REF_MOVES, text, strlen(text), moves, 21), REF_ROOM,
                   22);
    EXPECT_ACCEPTED(read_n(REF_MOVES, text, strlen(text), moves, 23), 22);
    EXPECT(moves[1] == -1 && moves[2] == -32768 && moves[3] == 32767
           && moves[4] == -5 && moves[21] == -11 && moves[22] == 99);
    EXPECT_ACCEPTED(read_n(REF_STATES, "1,65535\n0,2", 11, pairs, 5), 4);
    EXPECT(pairs[0] == 1 && pairs[1] == 65535 && pairs[2] == 0 && pairs[3] == 2
           && pairs[4] == 9);
    EXPECT_ACCEPTED(read_n(REF_SCANWORDS, "18446744073709551615", 20, scans, 2),
                    1);
    EXPECT(scans[0] == UINT64_MAX && scans[1] == 7);
    EXPECT_ACCEPTED(ref_read_records(REF_SCANWORDS, NULL, 0, NULL, 0), 0);
    EXPECT_REFUSED(ref_read_records(REF_FRAME, NULL, 0, NULL, 0), REF_FIELD, 0);
}

/* "scans.csv has at most 4,096: more is FIELD at 4,096." */
static void test_many_scans(void)
{
    static char text[5000 * 2 + 8];
    static uint64_t out[5000];
    for (size_t i = 0; i < 5000; i++)
        memcpy(text + 2 * i, "1\n", 2);
    EXPECT_ACCEPTED(read_n(REF_SCANWORDS, text, 2 * 4096, out, 5000), 4096);
    EXPECT_ACCEPTED(read_n(REF_SCANWORDS, text, 2 * 4096 - 1, out, 5000), 4096);
    EXPECT_REFUSED(read_n(REF_SCANWORDS, text, 2 * 4097, out, 5000), REF_FIELD,
                   4096);
    EXPECT_REFUSED(read_n(REF_SCANWORDS, text, 2 * 5000, out, 5000), REF_FIELD,
                   4096);
    text[2 * 4096] = 'x';
    EXPECT_REFUSED(read_n(REF_SCANWORDS, text, 2 * 5000, out, 5000), REF_FIELD,
                   4096);
    text[2 * 4095] = 'x';
    EXPECT_REFUSED(read_n(REF_SCANWORDS, text, 2 * 5000, out, 5000), REF_FIELD,
                   4095);
}

static uint8_t printed[REF_PRINT_MOST];

/* What the program prints for seven texts, with a 0 after it. */
static const char *print(const char *const texts[7])
{
    const uint8_t *files[7];
    size_t lens[7], n = 0;
    for (int i = 0; i < 7; i++) {
        files[i] = (const uint8_t *)texts[i];
        lens[i] = texts[i] == NULL ? 0 : strlen(texts[i]);
    }
    struct ref_answer a = ref_print(files, lens, printed, &n);
    EXPECT(n < REF_PRINT_MOST);
    printed[n] = 0;
    EXPECT((a.number == 0) == (strncmp((char *)printed, "REF", 3) != 0));
    return (char *)printed;
}

#define EXPECT_PRINT(due, ...) \
    EXPECT(strcmp(print((const char *const[7]){__VA_ARGS__}), (due)) == 0)

#define STATES "0,1\n0,0\n0,0\n"
#define MOVES "1,2,0,1,0,0,0,0,0,0,0\n2,1,0,2,101,0,0,0,0,0,0\n"

static void test_print(void)
{
    char due[1000];
    snprintf(due, sizeof due, "%s1,2,1\n2,2,1\n3,2,1\n4,2,1\n5,1,0\n",
             lamp_text);
    EXPECT_PRINT(due, "100,2,1\n", STATES, MOVES, "250\n", "1,2\n", "1,2\n",
                 "1\n2\n2\n2\n2\n");
    EXPECT_PRINT(due, "100,\"2\",1", "0,1\r\n0,0\r\n0,0", MOVES, "250", "1,2",
                 "1,2\r\n", "1\r\n2\n\"2\"\n2\n2");
    EXPECT_PRINT(lamp_text, "100,2,1", STATES, MOVES, "250", "1,2", "1,2", NULL);
    EXPECT_PRINT("REFUSED,16,0\n", NULL, NULL, NULL, NULL, NULL, NULL, NULL);
    EXPECT_PRINT("REFUSED,1,0\n", "1,0,0", NULL, NULL, NULL, NULL, NULL, NULL);
    EXPECT_PRINT("PROGRAM CHART\nEND_PROGRAM\n1,0,0\n", "1,0,0", "0,0", NULL,
                 NULL, NULL, NULL, "18446744073709551615");
    /* FIELD before all else, file by file */
    EXPECT_PRINT("REFUSED,16,1\n", "0,0,0", "1,1\nx", "x", NULL, NULL, NULL, "x");
    EXPECT_PRINT("REFUSED,16,0\n", "0,0,0", "1,1", "x", "\n", NULL, NULL, NULL);
    EXPECT_PRINT("REFUSED,16,2\n", "0,0,0", "1,1", NULL, NULL, NULL, NULL,
                 "1\n2\nx");
    EXPECT_PRINT("REFUSED,2,1\n", "1,0,0", "0,1\n1,1", NULL, NULL, NULL, NULL,
                 NULL);
    EXPECT_PRINT("REFUSED,8,0\n", "1,0,0", "0,0", "0,0,0,-32768,0,0,0,0,0,0,0",
                 NULL, NULL, NULL, "1");
    EXPECT_PRINT("REFUSED,9,1\n", "100,2,1", STATES, MOVES, "250", NULL, NULL,
                 NULL);
}

/* A file of n rows "i / per + 1, i % per". */
static char *pair_rows(unsigned n, unsigned per)
{
    char *text = must_alloc(n * 16 + 1), *at = text;
    for (unsigned i = 0; i < n; i++)
        at += sprintf(at, "%u,%u\n", i / per + 1, i % per);
    return text;
}

/* "A text above 65,536 bytes is ROOM here", both sides. */
static void test_print_room(void)
{
    static char states[2000];
    char *at = states;
    at += sprintf(at, "0,1\n");
    for (int s = 1; s < 200; s++)
        at += sprintf(at, "0,0\n");
    struct draft *d = draft_new(1, 0, 64);
    draft_state(d, 0, 1);
    for (int s = 1; s < 200; s++)
        draft_state(d, 0, 0);
    bool within = false, above = false;
    for (unsigned n = 600; n < 800; n++) {
        char *pairs = pair_rows(n, 200), due[64];
        d->t.output_pairs_len = 0;
        for (unsigned i = 0; i < n; i++)
            draft_output_pair(d, i / 200 + 1, i % 200);
        size_t len;
        free(text_of_chart(&d->t, &len));
        const char *got = print((const char *const[7]){
            "1,0,64", states, NULL, NULL, NULL, pairs, "5"});
        snprintf(due, sizeof due, "REFUSED,12,%zu\n", len);
        if (len > 65536) {
            above = true;
            EXPECT(strcmp(got, due) == 0);
        } else {
            within = true;
            EXPECT(strlen(got) > len && strncmp(got, "PROGRAM", 7) == 0);
        }
        free(pairs);
    }
    EXPECT(within && above);
    free(d);
}

/* A text of just 65,536 bytes, and one of a byte more: 32 presets of up to eight
 * digits make up the bytes that whole pairs cannot. */
static void test_print_exact(void)
{
    struct draft *d = draft_new(1, 0, 64);
    for (unsigned s = 0; s < 200; s++)
        draft_state(d, 0, s == 0);
    for (unsigned i = 0; i < 32; i++)
        draft_preset(d, 1);
    size_t len;
    uint8_t *out = must_alloc(65537);
    do {
        unsigned i = (unsigned)d->t.output_pairs_len / 2;
        draft_output_pair(d, i / 200 + 1, i % 200);
        len = (size_t)ref_write_tables(&d->t, NULL, 0).place;
    } while (len < 65536 - 200);
    for (unsigned i = 0; len < 65537; len++) {
        d->presets[i] *= 10;
        if (d->presets[i] == 10000000)
            i++;
        EXPECT_REFUSED(ref_write_tables(&d->t, out, len), REF_ROOM, len + 1);
    }
    char states[200 * 4 + 1], *at = states, presets[32 * 10], *more = presets;
    for (unsigned s = 0; s < 200; s++)
        at += sprintf(at, "0,%d\n", s == 0);
    for (unsigned i = 0; i < 32; i++)
        more += sprintf(more, "%u\n", (unsigned)d->presets[i]);
    char *pairs = pair_rows((unsigned)d->t.output_pairs_len / 2, 200);
    const char *const texts[7] = {"1,0,64", states, NULL, presets, NULL, pairs,
                                  "5"};
    EXPECT(strcmp(print(texts), "REFUSED,12,65537\n") == 0);
    *strstr(presets, "0\n") = '\n'; /* a digit less, and an empty record */
    EXPECT(strncmp(print(texts), "REFUSED,16,", 11) == 0);
    char *empty = strstr(presets, "\n\n");
    memmove(empty, empty + 1, strlen(empty));
    const char *got = print(texts);
    EXPECT(strlen(got) > 65536
           && strncmp(got + 65536 - 12, "END_PROGRAM\n1,1,", 16) == 0);
    free(pairs);
    free(out);
    free(d);
}

/* Many good records are SIZE; a broken one beyond the limit is FIELD. */
static void test_print_limits(void)
{
    char *text = must_alloc(3000 * 8), *at = text;
    for (int i = 0; i < 3000; i++)
        at += sprintf(at, "1,%d\n", i);
    EXPECT_PRINT("REFUSED,1,0\n", "1,0,64", "0,0", NULL, NULL, NULL, text, NULL);
    sprintf(at - 6, "1,02\n");
    EXPECT_PRINT("REFUSED,16,2999\n", "1,0,64", "0,0", NULL, NULL, NULL, text,
                 NULL);
    free(text);
}

void test_records(void)
{
    test_decimals();
    test_ranges();
    test_values();
    test_many_scans();
    test_print();
    test_print_room();
    test_print_exact();
    test_print_limits();
}
