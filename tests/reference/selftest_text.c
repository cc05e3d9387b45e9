/* TEXT: which texts and lists are accepted and where the others are refused.
 *
 * Besides hand-made cases, random lists and texts are judged by a second way:
 * whole lists by a plain recursive descent, and a prefix as possible when one
 * of a few ways to complete it gives an accepted whole. */
#include "selftest.h"

#include <stdio.h>
#include <stdlib.h>
#include <string.h>

#define W(operator, operand) \
    ((operator) * UINT32_C(134217728) + (uint32_t)(operand))

/* ---- Whole lists, by recursive descent ---- */

static bool is_test(uint32_t operand)
{
    return operand <= 255 || (operand >= 385 && operand <= 448)
        || (operand >= 769 && operand <= 800);
}

static bool is_head(uint32_t w)
{
    uint32_t o = w >> 27, x = w & 134217727;
    return ((o == 1 || o == 2) && is_test(x))
        || (o == 1 && (x == 2000 || x == 2001));
}

static bool is_and(uint32_t w)
{
    return (w >> 27 == 3 || w >> 27 == 4) && is_test(w & 134217727);
}

static bool is_store(uint32_t w)
{
    uint32_t o = w >> 27, x = w & 134217727;
    return (o >= 7 && o <= 9 && x <= 255) || (o == 7 && x >= 513 && x <= 576);
}

/* The end of the body that begins at i; 0 when there is none. */
static size_t body_end(const uint32_t *w, size_t n, size_t i)
{
    if (i >= n || !is_head(w[i]))
        return 0;
    for (i++; i < n;) {
        if (is_and(w[i])) {
            i++;
        } else if (w[i] == W(5, 0)) {
            i++;
            if (i >= n || !is_head(w[i]))
                return 0;
            for (i++; i < n && is_and(w[i]);)
                i++;
            if (i >= n || w[i] != W(6, 0))
                return 0;
            i++;
        } else {
            break;
        }
    }
    return i;
}

static bool is_timer_tail(const uint32_t *w, size_t n, uint32_t timer)
{
    return n >= 4 && timer <= 32 && w[0] == W(7, 1024 + timer)
        && w[1] >= W(11, 1) && w[1] <= W(11, 86400000)
        && w[2] == W(7, 1280 + timer) && w[3] == W(10, 1536 + timer);
}

/* Is the whole list accepted, and with how many blocks? */
static bool accepts(const uint32_t *w, size_t n, uint32_t *blocks)
{
    uint32_t k = 0;
    bool stored = false;
    for (size_t i = 0; i < n;) {
        i = body_end(w, n, i);
        if (i == 0)
            return false;
        if (!stored && is_timer_tail(w + i, n - i, k + 1)) {
            k++;
            i += 4;
            continue;
        }
        if (i >= n || !is_store(w[i]))
            return false;
        while (i < n && is_store(w[i]))
            i++;
        stored = true;
    }
    for (size_t i = 0; i < n; i++) {
        uint32_t x = w[i] & 134217727;
        if ((is_head(w[i]) || is_and(w[i])) && x >= 769 && x <= 800
            && x - 768 > k)
            return false;
    }
    *blocks = k;
    return true;
}

/* ---- Prefixes, by completing them ---- */

enum { MOST = 600 };

struct tokens {
    uint32_t w[MOST];
    size_t n;
};

static void push(struct tokens *t, uint32_t w)
{
    if (t->n < MOST)
        t->w[t->n++] = w;
}

/* First tails: out of a bracket. */
static void tail_bracket(struct tokens *t, int way)
{
    if (way == 1)
        push(t, W(1, 0));
    if (way >= 1)
        push(t, W(6, 0));
}

/* Second tails: to the end of a rung; k is the timer whose rung it may be. */
static void tail_rung(struct tokens *t, int way, uint32_t k)
{
    if (way == 1)
        push(t, W(7, 0));
    if (way == 2)
        push(t, W(7, 1024 + k));
    if (way == 2 || way == 3)
        push(t, W(11, 1));
    if (way >= 2 && way <= 4)
        push(t, W(7, 1280 + k));
    if (way >= 2)
        push(t, W(10, 1536 + k));
}

/* Third tails: the timer rungs from k to last. */
static void tail_timers(struct tokens *t, uint32_t k, uint32_t last)
{
    for (; k <= last; k++) {
        push(t, W(1, 2001));
        tail_rung(t, 2, k);
    }
}

static uint32_t count_of(const uint32_t *w, size_t n, uint32_t operator)
{
    uint32_t found = 0;
    for (size_t i = 0; i < n; i++)
        found += w[i] >> 27 == operator;
    return found;
}

static bool list_possible(const uint32_t *w, size_t n)
{
    uint32_t k = count_of(w, n, 10), blocks;
    for (int way = 0; way < 36; way++) {
        struct tokens t = {.n = n};
        memcpy(t.w, w, n * sizeof *w);
        tail_bracket(&t, way % 3);
        tail_rung(&t, way / 3 % 6, k + 1);
        if (way / 18 == 1)
            tail_timers(&t, count_of(t.w, t.n, 10) + 1, 32);
        if (accepts(t.w, t.n, &blocks))
            return true;
    }
    return false;
}

/* ---- Random lists ---- */

static uint32_t any_test(uint32_t most_block)
{
    switch (below(4)) {
    case 0: return below(4) ? below(3) : below(256);
    case 1: return 385 + (below(4) ? below(3) : below(64));
    case 2: return most_block ? 769 + below(most_block) : 0;
    default: return once_in(20) ? 256 + below(150) : below(2);
    }
}

static void any_head(struct tokens *t, uint32_t most_block)
{
    uint32_t operand = any_test(most_block);
    if (once_in(5))
        push(t, W(1, 2000 + below(2)));
    else
        push(t, W(1 + below(2), operand));
    while (once_in(2)) {
        operand = any_test(most_block);
        push(t, W(3 + below(2), operand));
    }
}

static void any_body(struct tokens *t, uint32_t most_block)
{
    any_head(t, most_block);
    while (once_in(3)) {
        push(t, W(5, 0));
        any_head(t, most_block);
        push(t, W(6, 0));
        if (once_in(2))
            push(t, W(3, any_test(most_block)));
    }
}

static uint32_t any_mx_store(void)
{
    uint32_t operator = 7 + below(3);
    return W(operator, below(4));
}

/* Mostly sound: the blocks named may be more than those with a rung. */
static void any_list(struct tokens *t)
{
    uint32_t k = once_in(10) ? 30 + below(3) : below(4);
    uint32_t named = once_in(3) ? 33 : k + once_in(3);
    for (uint32_t i = 1; i <= k; i++) {
        any_body(t, named);
        tail_rung(t, 2, i);
    }
    for (uint32_t rungs = below(4); rungs > 0; rungs--) {
        any_body(t, once_in(8) ? named : k);
        do
            push(t, once_in(3) ? W(7, 513 + below(64)) : any_mx_store());
        while (once_in(3));
    }
}

static uint32_t any_word(void)
{
    uint32_t operator = below(12);
    switch (below(8)) {
    case 0: return (uint32_t)any64();
    case 1: return W(operator + 1, 0);
    case 2: return W(7, 1025 + below(33));
    case 3: return W(7, 1281 + below(33));
    case 4: return W(10, 1537 + below(33));
    case 5: return W(11, once_in(2) ? 86400000 + below(2) : below(3));
    case 6: return W(operator, any_test(33));
    default: return W(operator, 2000 + below(3));
    }
}

static void spoil(struct tokens *t)
{
    size_t i = t->n == 0 ? 0 : below((uint32_t)t->n);
    size_t j = t->n == 0 ? 0 : below((uint32_t)t->n);
    switch (below(5)) {
    case 0: /* cut */
        t->n = i;
        break;
    case 1: /* replace */
        if (t->n > 0)
            t->w[i] = any_word();
        break;
    case 2: /* exchange */
        if (t->n > 0) {
            uint32_t w = t->w[i];
            t->w[i] = t->w[j];
            t->w[j] = w;
        }
        break;
    case 3: /* leave out */
        if (t->n > 0)
            memmove(t->w + i, t->w + i + 1, (--t->n - i) * sizeof *t->w);
        break;
    default: /* repeat a word of the list elsewhere */
        if (t->n > 0 && t->n < MOST) {
            uint32_t w = t->w[j];
            memmove(t->w + i + 1, t->w + i, (t->n++ - i) * sizeof *t->w);
            t->w[i] = once_in(3) ? any_word() : w;
        }
    }
}

static void judge_list(const uint32_t *w, size_t n)
{
    uint32_t blocks = 0;
    uint64_t bytes = 7777, due_blocks = 7777;
    struct ref_answer a = ref_controller_size(w, n, &bytes, &due_blocks);
    struct ref_answer b = ref_write_words(w, n, NULL, 0);
    if (accepts(w, n, &blocks)) {
        EXPECT(same(a, 0, 0, 0) && due_blocks == blocks);
        EXPECT(b.number == REF_ROOM);
        return;
    }
    EXPECT(a.number == REF_TEXT && a.length == 0 && bytes == 7777);
    EXPECT(same(b, a.number, a.place, 0));
    EXPECT(a.place <= n && list_possible(w, (size_t)a.place));
    EXPECT(a.place == n || !list_possible(w, (size_t)a.place + 1));
}

static void test_random_lists(void)
{
    unsigned accepted = 0, rounds = 20000;
    for (unsigned r = 0; r < rounds; r++) {
        struct tokens t = {.n = 0};
        uint32_t blocks;
        any_list(&t);
        if (t.n > MOST - 300)
            continue;
        for (uint32_t i = below(3); i > 0; i--)
            spoil(&t);
        uint32_t *w = must_alloc(t.n * sizeof *w); /* just as long as it is */
        memcpy(w, t.w, t.n * sizeof *w);
        judge_list(w, t.n);
        accepted += accepts(w, t.n, &blocks);
        free(w);
    }
    EXPECT(accepted > rounds / 10 && accepted < rounds * 9 / 10);
}

/* ---- Texts: tokens above the operators stand for the other lines ---- */

enum { PROGRAM = 20, VAR, DECLARED, END_VAR, END_PROGRAM, NONSENSE };

static const char *const nonsense[] = {
    "", " ", "LD", "LD ", "LD %MX00", "LD %MX01", "LD  %MX0", "ld %MX0",
    "LD %mx0", "LD %MX256", " LD %MX0", "LD %MX0 ", "LD %MX0\r", "LD %IX0",
    "LD %IX65", "LD %IX01", "LD %IX1,", "LD %QX1", "AND TRUE", "LDN TRUE",
    "LDN FALSE", "ANDN FALSE", "LD true", "LD TRUEE", "LD TRUEFALSE", "LD FALS",
    "T0 : TON;", "T33 : TON;", "T01 : TON;", "T1: TON;", "T1 : TON", "T1 : TOF;",
    "OR( ", "OR", "OR(LD %MX0", "AND(", ") ", "))", "ST %QX0", "ST %QX65",
    "ST %IX1", "S %QX1", "R %QX1", "STN %MX0", "ST T33.IN", "LD T33.Q",
    "LD T0.Q", "LD T1.q", "LD T1", "LD T1.ET", "CAL T33", "CAL T0", "CAL T1 ",
    "LD T#0ms", "LD T#86400001ms", "LD T#01ms", "LD T#1s", "LD T#1", "LD T#ms",
    "LD T#4294967297ms", "LD T#18446744073709551617ms", "AND T#1ms", "LD t#1ms",
    "LDN T#1ms", "LD T#-1ms", "LD T#1MS", "LD %MX4294967296", "LD %MX-0",
    "OR %MX0", "PROGRAM CHART ", "PROGRAM  CHART", "PROGRAM chart", "VAR ",
    "END_VAR;", "END_PROGRAM ", "END", "S", "R ", "(* *)", "LD +1",
    "LD %MX+1", "LD %MX", "LD %MX0x", "LD %MX0\t",
};
#define NONSENSES (sizeof nonsense / sizeof nonsense[0])

/* Bytes of a text, on the heap. */
struct bytes {
    char *at;
    size_t n;
};

static void say_operand(char *out, uint32_t o, uint32_t x)
{
    if (o == 11)
        sprintf(out, "T#%ums", (unsigned)x);
    else if (x <= 255)
        sprintf(out, "%%MX%u", (unsigned)x);
    else if (x > 384 && x <= 448)
        sprintf(out, "%%IX%u", (unsigned)(x - 384));
    else if (x > 512 && x <= 576)
        sprintf(out, "%%QX%u", (unsigned)(x - 512));
    else if (x > 768 && x < 1024)
        sprintf(out, "T%u.Q", (unsigned)(x - 768));
    else if (x > 1024 && x < 1280)
        sprintf(out, "T%u.IN", (unsigned)(x - 1024));
    else if (x > 1280 && x < 1536)
        sprintf(out, "T%u.PT", (unsigned)(x - 1280));
    else if (x > 1536 && x < 1792)
        sprintf(out, "T%u", (unsigned)(x - 1536));
    else if (x == 2000 || x == 2001)
        sprintf(out, "%s", x == 2000 ? "FALSE" : "TRUE");
    else
        sprintf(out, "?%u", (unsigned)x);
}

static void say(char *out, uint32_t w)
{
    static const char *const names[] = {"?", "LD", "LDN", "AND", "ANDN", "OR(",
                                        ")", "ST", "S", "R", "CAL", "LD"};
    uint32_t o = w >> 27, x = w & 134217727;
    if (w == W(PROGRAM, 0))
        sprintf(out, "PROGRAM CHART");
    else if (w == W(VAR, 0))
        sprintf(out, "VAR");
    else if (o == DECLARED)
        sprintf(out, "T%u : TON;", (unsigned)x);
    else if (w == W(END_VAR, 0))
        sprintf(out, "END_VAR");
    else if (w == W(END_PROGRAM, 0))
        sprintf(out, "END_PROGRAM");
    else if (o == NONSENSE)
        sprintf(out, "%s", nonsense[x % NONSENSES]);
    else if ((o == 5 || o == 6) && x == 0)
        sprintf(out, "%s", names[o]);
    else {
        char operand[32];
        say_operand(operand, o, x);
        sprintf(out, "%s %s", o < 12 ? names[o] : "?", operand);
    }
}

/* The text of the tokens; starts[i] is where token i begins. */
static struct bytes render(const struct tokens *t, size_t *starts)
{
    struct bytes b = {.at = must_alloc(t->n * 48), .n = 0};
    for (size_t i = 0; i < t->n; i++) {
        char line[64];
        say(line, t->w[i]);
        starts[i] = b.n;
        memcpy(b.at + b.n, line, strlen(line));
        b.n += strlen(line);
        b.at[b.n++] = '\n';
    }
    starts[t->n] = b.n;
    return b;
}

/* Is the whole text accepted? */
static bool text_accepts(const uint32_t *w, size_t n)
{
    uint32_t declared = 0, blocks;
    size_t i = 0;
    if (n < 2 || w[i++] != W(PROGRAM, 0) || w[n - 1] != W(END_PROGRAM, 0))
        return false;
    if (w[i] == W(VAR, 0)) {
        for (i++; i < n && w[i] == W(DECLARED, declared + 1); i++)
            declared++;
        if (declared == 0 || declared > 32 || i >= n || w[i++] != W(END_VAR, 0))
            return false;
    }
    if (i > n - 1)
        return false;
    return accepts(w + i, n - 1 - i, &blocks) && blocks == declared;
}

static bool text_possible(const uint32_t *w, size_t n)
{
    uint32_t k = count_of(w, n, 10);
    if (text_accepts(w, n))
        return true;
    for (int way = 0; way < 4 * 36; way++) {
        struct tokens t = {.n = n};
        memcpy(t.w, w, n * sizeof *w);
        if (way % 4 == 1)
            push(&t, W(PROGRAM, 0));
        if (way % 4 == 2)
            push(&t, W(DECLARED, 1));
        if (way % 4 >= 2)
            push(&t, W(END_VAR, 0));
        tail_bracket(&t, way / 4 % 3);
        tail_rung(&t, way / 12 % 6, k + 1);
        if (way / 72 == 1)
            tail_timers(&t, count_of(t.w, t.n, 10) + 1,
                        count_of(t.w, t.n, DECLARED));
        push(&t, W(END_PROGRAM, 0));
        if (text_accepts(t.w, t.n))
            return true;
    }
    return false;
}

static void any_text(struct tokens *t)
{
    struct tokens list = {.n = 0};
    any_list(&list);
    uint32_t k = count_of(list.w, list.n, 10);
    if (once_in(10) && k < 33)
        k++;
    push(t, W(PROGRAM, 0));
    if (k > 0) {
        push(t, W(VAR, 0));
        for (uint32_t i = 1; i <= k; i++)
            push(t, W(DECLARED, i));
        push(t, W(END_VAR, 0));
    }
    for (size_t i = 0; i < list.n; i++)
        push(t, list.w[i]);
    push(t, W(END_PROGRAM, 0));
    for (uint32_t i = below(3); i > 0; i--)
        spoil(t);
    uint32_t which = below(NONSENSES);
    if (once_in(4) && t->n > 0)
        t->w[below((uint32_t)t->n)] = W(NONSENSE, which);
}

/* Sound texts read back to their words and write back to their bytes. */
static void judge_accepted_text(const struct tokens *t, const struct bytes *b)
{
    uint32_t words[MOST];
    uint8_t *again = must_alloc(b->n);
    struct ref_answer a =
        ref_read_text((uint8_t *)b->at, b->n, words, MOST);
    size_t n = (size_t)a.length, i = 0;
    while (t->w[i] >> 27 >= PROGRAM && t->w[i] >> 27 < END_PROGRAM)
        i++;
    EXPECT(a.number == 0 && n == t->n - i - 1);
    EXPECT(memcmp(words, t->w + i, n * sizeof *words) == 0);
    EXPECT_ACCEPTED(ref_write_words(words, n, again, b->n), b->n);
    EXPECT(memcmp(again, b->at, b->n) == 0);
    free(again);
}

static void judge_text(const struct tokens *t)
{
    size_t starts[MOST + 1];
    struct bytes b = render(t, starts);
    uint8_t *copy = must_alloc(b.n); /* just as long as it is */
    memcpy(copy, b.at, b.n);
    uint32_t words[MOST];
    struct ref_answer a = ref_read_text(copy, b.n, words, MOST);
    if (text_accepts(t->w, t->n)) {
        judge_accepted_text(t, &b);
        /* "A last line without LF is one that no text has." */
        EXPECT_REFUSED(ref_read_text(copy, b.n - 1, words, MOST), REF_TEXT,
                       starts[t->n - 1]);
    } else {
        size_t line = 0;
        while (line < t->n && starts[line] != a.place)
            line++;
        EXPECT(a.number == REF_TEXT && a.length == 0 && starts[line] == a.place);
        EXPECT(text_possible(t->w, line));
        EXPECT(line == t->n || !text_possible(t->w, line + 1));
    }
    free(copy);
    free(b.at);
}

static void test_random_texts(void)
{
    unsigned accepted = 0, judged = 0;
    for (unsigned r = 0; r < 20000; r++) {
        struct tokens t = {.n = 0};
        any_text(&t);
        if (t.n > MOST - 300)
            continue;
        judge_text(&t);
        judged++;
        accepted += text_accepts(t.w, t.n);
    }
    EXPECT(accepted > judged / 10 && accepted < judged * 9 / 10);
}

/* ---- By hand ---- */

static void expect_place(const char *text, size_t place, int line)
{
    uint32_t words[64];
    struct ref_answer a =
        ref_read_text((const uint8_t *)text, strlen(text), words, 64);
    if (place == SIZE_MAX)
        expect_at(a.number == REF_ACCEPTED, text, __FILE__, line);
    else
        expect_at(same(a, REF_TEXT, place, 0), text, __FILE__, line);
}
#define PLACE(text, place) expect_place((text), (place), __LINE__)
#define GOOD SIZE_MAX
#define P "PROGRAM CHART\n"  /* 14 bytes */
#define V1 "VAR\nT1 : TON;\nEND_VAR\n" /* 4 + 10 + 8 bytes */
#define T1 "ST T1.IN\nLD T#1ms\nST T1.PT\nCAL T1\n"
#define E "END_PROGRAM\n"

static void test_places(void)
{
    PLACE("", 0);
    PLACE("\n", 0);
    PLACE("PROGRAM CHART", 0);
    PLACE(P, 14);
    PLACE(P E, GOOD);
    PLACE(P "END_PROGRAM", 14);
    PLACE(P E "\n", 26);
    PLACE(P E E, 26);
    PLACE(P E "x", 26);
    PLACE(P "\n" E, 14);
    PLACE(P "VAR\n", 18);
    PLACE(P "VAR\nEND_VAR\n", 18);
    PLACE(P "VAR\nT2 : TON;\n", 18);
    PLACE(P "VAR\nT1 : TON;\nT1 : TON;\n", 28);
    PLACE(P V1, 36);
    PLACE(P V1 E, 36);
    PLACE(P V1 "LD TRUE\n" T1, 36 + 8 + 34);
    PLACE(P V1 "LD TRUE\n" T1 E, GOOD);
    PLACE(P V1 "LD TRUE\nST %MX0\n", 36 + 8); /* the timer rung is due */
    PLACE(P V1 "LD T1.Q\n" T1 E, GOOD);
    PLACE(P V1 "LD T2.Q\n" T1 E, 36);
    PLACE(P V1 "LD TRUE\n" T1 "LD TRUE\n" T1 E, 36 + 8 + 34 + 8);
    PLACE(P "LD TRUE\n" T1 E, 14 + 8);
    PLACE(P "LD T1.Q\n", 14);
}

static void test_rung_places(void)
{
    PLACE(P "LD TRUE\nLD TRUE\n", 22);
    PLACE(P "LD TRUE\n" E, 22);
    PLACE(P "LD TRUE\nST %MX0\n" E, GOOD);
    PLACE(P "LD TRUE\nST %MX0\n" V1 E, 30);
    PLACE(P "LD TRUE\nAND %MX255\nAND %MX256\n", 22 + 11);
    PLACE(P "LD FALSE\nOR(\nLD TRUE\nAND %IX64\n)\nANDN %MX0\nR %MX255\nS %MX0\n"
            "ST %QX64\nLDN %IX1\nST %QX1\n" E, GOOD);
    PLACE(P "LD TRUE\nOR(\nOR(\n", 26);  /* "no group in a group" */
    PLACE(P "LD TRUE\nOR(\n)\n", 26);
    PLACE(P "LD TRUE\nOR(\nAND %MX0\n", 26);
    PLACE(P "LD TRUE\nOR(\nLD %MX0\nST %MX0\n", 34);
    PLACE(P "LD TRUE\n)\n", 22);
    PLACE(P "OR(\n", 14);
    PLACE(P "AND %MX0\n", 14);
    PLACE(P "ST %MX0\n", 14);
    PLACE(P "LD T#1ms\n", 14);
    static const char nul[] = P "LD TRUE\n\0\nST %MX0\n" E;
    uint32_t words[4];
    EXPECT_REFUSED(ref_read_text((const uint8_t *)nul, sizeof nul - 1, words, 4),
                   REF_TEXT, 22);
}

static void expect_index(const uint32_t *w, size_t n, size_t place, int line)
{
    uint64_t bytes, blocks;
    struct ref_answer a = ref_controller_size(w, n, &bytes, &blocks);
    if (place == GOOD)
        expect_at(a.number == REF_ACCEPTED, "good list", __FILE__, line);
    else
        expect_at(same(a, REF_TEXT, place, 0), "place", __FILE__, line);
}
#define INDEX(place, ...) \
    expect_index((const uint32_t[]){__VA_ARGS__}, \
                 sizeof((const uint32_t[]){__VA_ARGS__}) / 4, (place), __LINE__)
#define LDQ(n) W(1, 768 + (n))
#define TAIL(n) W(7, 1024 + (n)), W(11, 1), W(7, 1280 + (n)), W(10, 1536 + (n))

static void test_indices(void)
{
    expect_index(NULL, 0, GOOD, __LINE__);
    INDEX(0, 0);
    INDEX(1, W(1, 0));
    INDEX(1, W(1, 0), W(1, 0));
    INDEX(GOOD, W(1, 0), W(7, 0));
    INDEX(1, LDQ(32));
    INDEX(0, LDQ(33));
    INDEX(1, LDQ(1), W(7, 0));       /* T1 can no longer be declared */
    INDEX(5, LDQ(2), TAIL(1));       /* T2 is still to come */
    INDEX(GOOD, LDQ(1), TAIL(1));
    INDEX(6, LDQ(2), TAIL(1), W(1, 0), W(7, 0));
    INDEX(GOOD, LDQ(2), TAIL(1), W(1, 0), TAIL(2));
    INDEX(6, LDQ(2), TAIL(1), W(1, 0), W(8, 0));
    INDEX(7, W(1, 0), TAIL(1), W(1, 0), W(7, 0), LDQ(2));
    INDEX(8, W(1, 0), TAIL(1), W(1, 0), W(7, 0), W(1, 0), W(3, 770));
    INDEX(GOOD, W(1, 0), TAIL(1), W(1, 0), W(7, 0), LDQ(1), W(7, 513));
    INDEX(8, W(1, 0), TAIL(1), W(1, 0), W(7, 513), W(1, 0), TAIL(2));
    INDEX(1, W(1, 0), TAIL(2));
    INDEX(6, W(1, 0), TAIL(1), W(1, 0), TAIL(1));
    INDEX(2, W(1, 0), W(7, 1025), W(11, 0));
    INDEX(2, W(1, 0), W(7, 1025), W(11, 86400001));
    INDEX(3, W(1, 0), W(7, 1025), W(11, 86400000));
    INDEX(3, W(1, 0), W(7, 1025), W(11, 1), W(7, 1282));
    INDEX(4, W(1, 0), W(7, 1025), W(11, 1), W(7, 1281), W(10, 1538));
}

static void test_undecodable(void)
{
    INDEX(1, W(1, 0), W(5, 1));      /* OR( carries no operand */
    INDEX(3, W(1, 0), W(5, 0), W(1, 0), W(6, 1));
    INDEX(0, W(1, 513));             /* LD %QX1 is no instruction */
    INDEX(0, W(1, 256));
    INDEX(0, W(1, 384));
    INDEX(0, W(1, 449));
    INDEX(0, W(1, 768));
    INDEX(0, W(1, 1999));
    INDEX(0, W(1, 2002));
    INDEX(0, W(2, 2001));
    INDEX(1, W(1, 2001), W(3, 2001));
    INDEX(1, W(1, 2001), W(7, 256));
    INDEX(1, W(1, 2001), W(7, 512));
    INDEX(1, W(1, 2001), W(7, 577));
    INDEX(1, W(1, 2001), W(8, 513));
    INDEX(GOOD, W(1, 2001), W(7, 576), W(9, 255));
}

void test_text(void)
{
    test_places();
    test_rung_places();
    test_indices();
    test_undecodable();
    test_random_lists();
    test_random_texts();
}
