/* Text from words and words from text, over the cases in text.cases, a line
 * each: the length of the lent slice, a space, a label, a mark and the case.
 *
 * Behind ":" and a space it is a list of instruction words, "operator
 * number+operand;" each ("4096 lamp: 1+0;7+1025;"). Printed are the label;
 * the text with "WROTE,bytes,zeros" or "REFUSED,number,place" with
 * "KEPT,length,zeros", where zeros is how many bytes of the slice are still 0,
 * as all were; and "CONTROLLER,flip-flops,blocks" or "REFUSED,number,place" of
 * the sizes.
 *
 * Behind "=" or "!" it is a text, with | for LF and ~ for CR ("16 no rungs=
 * PROGRAM CHART|END_PROGRAM|" on one line). Printed is "label number,place,
 * first", with document 01's number and place of the refusal, or 0 and how
 * many words were read, and the first word of the lent slice, which was 7; and
 * behind "!" the words of the whole slice.
 *
 * What the lines should be, in text.expected, was worked out from document
 * 01. */
#include "cases.h"

#include <stdio.h>
#include <string.h>

/* ---- A list of words ---- */

static size_t zeros(const struct lent *l)
{
    size_t n = 0;
    for (size_t i = 0; i < l->len; i++)
        n += number_in(l, i) == 0;
    return n;
}

static void tell(const char *name, uint64_t a, uint64_t b)
{
    printf("%s,%" PRIu64 ",%" PRIu64 "\n", name, a, b);
}

static void write_words(const struct numbers *words, size_t room)
{
    struct lent list = lend_numbers(words, words->len, 4);
    struct lent text = lend_same(0, room, 1);
    struct splicetuck_answer a = splicetuck_write_words(
        list.at, list.len, text.at, text.len);
    uint64_t told = place_or_length(a);
    if (a.number == 0) {
        if (told > room)
            wrong("%" PRIu64 " bytes in a slice of %zu", told, room);
        fwrite(text.at, 1, told, stdout);
        tell("WROTE", told, zeros(&text));
    } else {
        tell("REFUSED", a.number, told);
        tell("KEPT", text.len, zeros(&text));
    }
    take_back(&text, a.number != 0);
    take_back(&list, true);
}

static void tell_sizes(const struct numbers *words)
{
    struct lent list = lend_numbers(words, words->len, 4);
    struct splicetuck_sizes s = splicetuck_sizes_of(list.at, list.len);
    if (s.number == 0 ? s.place != 0 : s.flip_flops != 0 || s.blocks != 0)
        wrong("the sizes answer too much");
    if (s.number == 0)
        tell("CONTROLLER", s.flip_flops, s.blocks);
    else
        tell("REFUSED", s.number, s.place);
    take_back(&list, true);
}

static void run_words(size_t room, const char *at)
{
    static struct numbers words;
    clear(&words);
    read_mark(&at, " ");
    while (*at != '\0') {
        push(&words, read_word(&at));
        read_mark(&at, ";");
    }
    putchar('\n');
    write_words(&words, room);
    tell_sizes(&words);
}

/* ---- A text ---- */

static struct lent lend_text(const char *at)
{
    static struct numbers bytes;
    clear(&bytes);
    for (; *at != '\0'; at++)
        push(&bytes, *at == '|' ? '\n' : *at == '~' ? '\r' : (uint8_t)*at);
    return lend_numbers(&bytes, bytes.len, 1);
}

static void run_text(size_t room, const char *at, bool all)
{
    if (room == 0)
        wrong("no first word to be shown");
    struct lent text = lend_text(at);
    struct lent words = lend_same(7, room, 4);
    struct splicetuck_answer a = splicetuck_read(
        text.at, text.len, words.at, words.len);
    printf(" %" PRIu32 ",%" PRIu64 ",%" PRIu64 "\n", a.number,
           place_or_length(a), number_in(&words, 0));
    for (size_t i = 0; all && i < words.len; i++)
        printf("%" PRIu64 "\n", number_in(&words, i));
    take_back(&words, a.number != 0);
    take_back(&text, true);
}

/* ---- The lines ---- */

static void run_line(const char *at)
{
    size_t room = read_number(&at, CAPACITY);
    read_mark(&at, " ");
    const char *label = at;
    if (read_up_to(&at, ":=!") == 0)
        wrong("no label");
    printf("%.*s", (int)(at - label), label);
    if (*at == ':')
        run_words(room, at + 1);
    else
        run_text(room, at + 1, *at == '!');
}

int main(void)
{
    for (const char *line; (line = next_line()) != NULL;)
        run_line(line);
    return finish();
}
