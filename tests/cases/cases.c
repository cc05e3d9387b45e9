/* What the drivers share: strict reading, and slices between guards. */
#include "cases.h"

#include <stdarg.h>
#include <stdio.h>
#include <stdlib.h>
#include <string.h>

static size_t line_number;

void wrong(const char *format, ...)
{
    va_list list;
    fflush(stdout);
    fprintf(stderr, "line %zu: ", line_number);
    va_start(list, format);
    vfprintf(stderr, format, list);
    va_end(list);
    fputc('\n', stderr);
    exit(1);
}

/* ---- Lines ---- */

enum { MOST_LINE = 1 << 16 };

const char *next_line(void)
{
    static char line[MOST_LINE];
    line_number++;
    if (fgets(line, sizeof line, stdin) == NULL) {
        if (ferror(stdin))
            wrong("it cannot be read");
        return NULL;
    }
    size_t n = strlen(line);
    if (n == 0 || line[n - 1] != '\n')
        wrong("no LF ends it, it is too long or has a NUL");
    line[n - 1] = '\0';
    return line;
}

static bool is_digit(char c)
{
    return c >= '0' && c <= '9';
}

uint64_t read_number(const char **at, uint64_t most)
{
    const char *from = *at;
    uint64_t n = 0;
    if (!is_digit(*from))
        wrong("no number before \"%s\"", from);
    if (from[0] == '0' && is_digit(from[1]))
        wrong("a number that starts with 0: \"%s\"", from);
    for (; is_digit(**at); ++*at) {
        uint64_t digit = (uint64_t)(**at - '0');
        if (digit > most || n > (most - digit) / 10)
            wrong("a number above %" PRIu64 ": \"%s\"", most, from);
        n = n * 10 + digit;
    }
    return n;
}

void read_mark(const char **at, const char *mark)
{
    size_t n = strlen(mark);
    if (strncmp(*at, mark, n) != 0)
        wrong("no \"%s\" before \"%s\"", mark, *at);
    *at += n;
}

size_t read_up_to(const char **at, const char *ends)
{
    size_t n = strcspn(*at, ends);
    if ((*at)[n] == '\0')
        wrong("none of \"%s\" in \"%s\"", ends, *at);
    *at += n;
    return n;
}

uint32_t read_word(const char **at)
{
    const uint32_t operands = 134217728;
    uint32_t operator = (uint32_t)read_number(at, 31);
    read_mark(at, "+");
    return operator * operands + (uint32_t)read_number(at, operands - 1);
}

/* ---- Lists ---- */

void clear(struct numbers *list)
{
    memset(list, 0, sizeof *list);
}

void push(struct numbers *list, uint64_t number)
{
    if (list->len == CAPACITY)
        wrong("more than %d numbers", CAPACITY);
    list->at[list->len++] = number;
}

/* ---- Lent slices ---- */

enum { GUARD = 64, GUARD_BYTE = 0xA5 };

static void *must_alloc(size_t size)
{
    void *at = malloc(size);
    if (at == NULL)
        wrong("no memory");
    return at;
}

struct lent lend(const void *content, size_t len, size_t each)
{
    struct lent l = {.len = len, .each = each};
    size_t size = len * each, whole = size + 2 * GUARD;
    l.all = must_alloc(whole);
    l.first = must_alloc(whole);
    memset(l.all, GUARD_BYTE, whole);
    l.at = l.all + GUARD;
    if (size > 0)
        memcpy(l.at, content, size);
    memcpy(l.first, l.all, whole);
    return l;
}

/* A number in a type of so many bytes, which its reader has held it to. */
static void put(uint8_t *to, size_t each, uint64_t number)
{
    const uint8_t n8 = (uint8_t)number;
    const uint16_t n16 = (uint16_t)number;
    const uint32_t n32 = (uint32_t)number;
    switch (each) {
    case 1: memcpy(to, &n8, each); break;
    case 2: memcpy(to, &n16, each); break;
    case 4: memcpy(to, &n32, each); break;
    default: memcpy(to, &number, sizeof number);
    }
}

struct lent lend_numbers(const struct numbers *list, size_t len, size_t each)
{
    static uint8_t content[CAPACITY * sizeof(uint64_t)];
    if (len > CAPACITY)
        wrong("a slice of more than %d numbers", CAPACITY);
    for (size_t i = 0; i < len; i++)
        put(content + i * each, each, list->at[i]);
    return lend(content, len, each);
}

struct lent lend_same(uint64_t number, size_t len, size_t each)
{
    static struct numbers list;
    clear(&list);
    while (list.len < len)
        push(&list, number);
    return lend_numbers(&list, len, each);
}

uint64_t number_in(const struct lent *l, size_t i)
{
    switch (l->each) {
    case 1: return ((const uint8_t *)l->at)[i];
    case 2: return ((const uint16_t *)l->at)[i];
    case 4: return ((const uint32_t *)l->at)[i];
    default: return ((const uint64_t *)l->at)[i];
    }
}

void take_back(struct lent *l, bool kept)
{
    size_t size = l->len * l->each;
    if (memcmp(l->all, l->first, GUARD) != 0)
        wrong("a call changed bytes before a slice");
    if (memcmp(l->all + GUARD + size, l->first + GUARD + size, GUARD) != 0)
        wrong("a call changed bytes behind a slice");
    if (kept && memcmp(l->all, l->first, GUARD + size) != 0)
        wrong("a call changed a slice that it was to keep");
    free(l->all);
    free(l->first);
}

/* ---- Answers ---- */

uint64_t place_or_length(struct splicetuck_answer a)
{
    if (a.number == 0 ? a.place != 0 : a.length != 0)
        wrong("number %" PRIu32 " with place %" PRIu64 " and length %" PRIu64,
              a.number, a.place, a.length);
    return a.number == 0 ? a.length : a.place;
}

int finish(void)
{
    if (fflush(stdout) == 0 && !ferror(stdout))
        return 0;
    fputs("standard output cannot be written\n", stderr);
    return 1;
}
