/* Measures the library against the same rules in ordinary C, in one run: the ratio is what counts.
 * Times are of the processor, so that other work on the machine counts little. */
#include "fanrack.h"
#include "lists.h"
#include "plain.h"

#include <stdio.h>
#include <stdlib.h>
#include <time.h>

enum { ROUNDS = 21, CHECKS = 1000, LEVELS = 10000000, ARGUMENTS = 65536 };

struct arguments {
    int32_t on;
    int8_t t, t_min;
    uint8_t code, m;
};

/* What is measured: one of the two checks, or one of the two levels. Each gives a sum of its answers, which is
 * printed, so that no call can be left out. */
struct work {
    const uint8_t *list;
    const struct arguments *arguments;
};

static unsigned long check_by_library(const struct work *work)
{
    unsigned long sum = 0;
    int i;

    for (i = 0; i < CHECKS; i++)
        sum += (unsigned long)fanrack_check_list(work->list, LONGEST_LIST) + 1;
    return sum;
}

static unsigned long check_by_plain(const struct work *work)
{
    unsigned long sum = 0;
    int i;

    for (i = 0; i < CHECKS; i++)
        sum += (unsigned long)plain_check_list(work->list, LONGEST_LIST) + 1;
    return sum;
}

static unsigned long level_by_library(const struct work *work)
{
    unsigned long sum = 0;
    int i;

    for (i = 0; i < LEVELS; i++) {
        const struct arguments *a = work->arguments + i % ARGUMENTS;

        sum += (unsigned long)(fanrack_loop_level(a->on, a->t, a->t_min, a->code, a->m) + 4);
    }
    return sum;
}

static unsigned long level_by_plain(const struct work *work)
{
    unsigned long sum = 0;
    int i;

    for (i = 0; i < LEVELS; i++) {
        const struct arguments *a = work->arguments + i % ARGUMENTS;

        sum += (unsigned long)(plain_loop_level(a->on, a->t, a->t_min, a->code, a->m) + 4);
    }
    return sum;
}

static int in_order(const void *a, const void *b)
{
    double x = *(const double *)a, y = *(const double *)b;

    return (x > y) - (x < y);
}

static double seconds_of(unsigned long (*run)(const struct work *), const struct work *work, unsigned long *sum)
{
    clock_t start = clock();

    *sum = run(work);
    return (double)(clock() - start) / CLOCKS_PER_SEC;
}

/* The two take turns, so that a change of the machine's speed meets both. `unit` is what one call is told in. */
static void measure(const char *name, const char *unit, double calls_per_unit,
                    unsigned long (*library)(const struct work *), unsigned long (*plain)(const struct work *),
                    const struct work *work)
{
    double ours[ROUNDS], theirs[ROUNDS];
    unsigned long sum, plain_sum;
    int i;

    library(work);
    plain(work);
    for (i = 0; i < ROUNDS; i++) {
        ours[i] = seconds_of(library, work, &sum) * calls_per_unit;
        theirs[i] = seconds_of(plain, work, &plain_sum) * calls_per_unit;
        if (sum != plain_sum) {
            printf("%s: sums %lu and %lu\n", name, sum, plain_sum);
            exit(1);
        }
    }
    qsort(ours, ROUNDS, sizeof ours[0], in_order);
    qsort(theirs, ROUNDS, sizeof theirs[0], in_order);
    printf("%-16s %-3s %8.2f %8.2f  %8.2f %8.2f  %6.2f %6.2f   %lu\n", name, unit, ours[0], ours[ROUNDS / 2],
           theirs[0], theirs[ROUNDS / 2], ours[0] / theirs[0], ours[ROUNDS / 2] / theirs[ROUNDS / 2], sum);
}

/* Mostly loops that are on, and mostly on the ramp; the same arguments in each run. */
static void put_arguments(struct arguments *out)
{
    uint32_t random = 2463534242u;
    int i;

    for (i = 0; i < ARGUMENTS; i++) {
        random ^= random << 13;
        random ^= random >> 17;
        random ^= random << 5;
        out[i].on = random % 8 != 0;
        out[i].t_min = (int8_t)(random >> 3 & 0x3f);
        out[i].t = (int8_t)(out[i].t_min - 5 + (int)(random >> 9 & 0x3f));
        out[i].code = (uint8_t)((random >> 15) % 6);
        out[i].m = (uint8_t)(random >> 24);
    }
}

int main(void)
{
    static uint8_t writes[LONGEST_LIST], remarks[LONGEST_LIST];
    static struct arguments arguments[ARGUMENTS];
    struct work work;

    put_full_list(writes, LONGEST_LIST, WRITES, 1);
    put_full_list(remarks, LONGEST_LIST, REMARKS, 1);
    put_arguments(arguments);
    work.arguments = arguments;

    printf("%-20s %17s  %17s  %13s\n", "one call", "library", "plain C", "ratio");
    printf("%-20s %8s %8s  %8s %8s  %6s %6s   %s\n", "", "best", "median", "best", "median", "best", "median", "sum");
    work.list = writes;
    measure("list of writes", "us", 1e6 / CHECKS, check_by_library, check_by_plain, &work);
    work.list = remarks;
    measure("list of remarks", "us", 1e6 / CHECKS, check_by_library, check_by_plain, &work);
    measure("loop level", "ns", 1e9 / LEVELS, level_by_library, level_by_plain, &work);
    return 0;
}
