/* agree [SEED [CASES [FIRST CASE [MINUTES]]]]: compares each call in so many
 * cases. With MINUTES other than 0 the calls share that time, and each ends
 * with its cases or its share, whichever comes first. CALLS is given by the
 * Makefile: CALL(check) CALL(write) and so on. */
#include "agree.h"

#include <errno.h>
#include <inttypes.h>
#include <stdio.h>
#include <stdlib.h>
#include <time.h>

/* In a run of this size every number that a call can give must be seen. */
enum { STANDARD_CASES = 8000 };

#define CALL(name) extern const struct call compare_##name;
CALLS
#undef CALL

#define CALL(name) &compare_##name,
static const struct call *const calls[] = { CALLS };
#undef CALL

enum { NUMBERS = 17, CALL_COUNT = sizeof calls / sizeof calls[0] };

struct tally {
    uint64_t cases, seen[NUMBERS];
    bool differs;
};

/* What is to be compared. */
struct plan {
    uint64_t seed, cases, first, minutes;
};

static double seconds(void)
{
    struct timespec t;
    timespec_get(&t, TIME_UTC);
    return (double)t.tv_sec + (double)t.tv_nsec / 1e9;
}

/* One difference of a call is reported; its further cases would tell little
 * more, and the other calls go on. */
static void compare_call(const struct plan *p, const struct call *call,
                         struct tally *t)
{
    double share = (double)p->minutes * 60 / CALL_COUNT, start = seconds();
    for (; t->cases < p->cases && !t->differs; t->cases++) {
        if (p->minutes > 0 && seconds() - start >= share)
            return;
        report_begin(call->name, p->seed, p->first + t->cases);
        random_from(p->seed, p->first + t->cases, call->name);
        t->seen[call->compare()]++;
        t->differs = differs();
    }
}

static void print_tallies(const struct tally *tallies)
{
    printf("%-13s %8s", "number", "cases");
    for (unsigned n = 0; n < NUMBERS; n++)
        printf(" %7u", n);
    printf("\n");
    for (size_t i = 0; i < CALL_COUNT; i++) {
        printf("%-13s %8" PRIu64, calls[i]->name, tallies[i].cases);
        for (unsigned n = 0; n < NUMBERS; n++)
            if (calls[i]->gives & GIVES(n))
                printf(" %7" PRIu64, tallies[i].seen[n]);
            else
                printf(" %7s", "-");
        printf("%s\n", tallies[i].differs ? "  DIFFERS" : "");
    }
    for (size_t i = 0; i < CALL_COUNT; i++)
        for (struct event *e = calls[i]->events; e && e->name; e++)
            printf("%s: %s: %" PRIu64 "\n", calls[i]->name, e->name, e->times);
}

/* False, and says what, when something has not been met that should. */
static bool all_met(const struct tally *tallies)
{
    bool all = true;
    for (size_t i = 0; i < CALL_COUNT; i++) {
        if (tallies[i].differs)
            continue;
        for (unsigned n = 0; n < NUMBERS; n++)
            if ((calls[i]->gives & GIVES(n)) && tallies[i].seen[n] == 0) {
                printf("NEVER SEEN: %s: number %u\n", calls[i]->name, n);
                all = false;
            }
        for (struct event *e = calls[i]->events; e && e->name; e++)
            if (e->times == 0) {
                printf("NEVER SEEN: %s: %s\n", calls[i]->name, e->name);
                all = false;
            }
    }
    return all;
}

static bool number_of(const char *argument, uint64_t *number)
{
    char *end;
    errno = 0;
    unsigned long long value = strtoull(argument, &end, 10);
    *number = value;
    return errno == 0 && end != argument && *end == '\0';
}

static bool plan_of(int count, char **arguments, struct plan *p)
{
    uint64_t *const numbers[] = {&p->seed, &p->cases, &p->first, &p->minutes};
    bool good = count <= 5;
    for (int i = 1; good && i < count; i++)
        good = number_of(arguments[i], numbers[i - 1]);
    return good;
}

int main(int count, char **arguments)
{
    static struct tally tallies[CALL_COUNT];
    struct plan p = {.seed = 1, .cases = STANDARD_CASES};
    if (!plan_of(count, arguments, &p)) {
        fprintf(stderr, "use: agree [SEED [CASES [FIRST CASE [MINUTES]]]]\n");
        return 2;
    }
    /* A run that is ended from outside keeps the reports it has made. */
    setvbuf(stdout, NULL, _IOLBF, BUFSIZ);
    report_crashes();
    for (size_t i = 0; i < CALL_COUNT; i++)
        compare_call(&p, calls[i], &tallies[i]);
    print_tallies(tallies);
    /* Too little time is no excuse: only fewer cases asked for are. */
    bool good = p.cases < STANDARD_CASES || all_met(tallies);
    for (size_t i = 0; i < CALL_COUNT; i++)
        good = good && !tallies[i].differs;
    printf("%s: seed %" PRIu64 ", from case %" PRIu64 ", %s%" PRIu64
           " cases a call\n", good ? "AGREE" : "FAILED", p.seed, p.first,
           p.minutes > 0 ? "at most " : "", p.cases);
    return good ? 0 : 1;
}
