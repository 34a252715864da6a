/* Holds the library to the same rules in ordinary C: on the example lists, on damaged and made-up lists, and over
 * the arguments of a control loop.
 *
 *     test [--small] LIST..
 *
 * Beside each X.list stands X.out, with the verdict on it. `--small` makes fewer comparisons, for valgrind.
 * The first difference is printed with all its arguments, and ends the test with status 1.
 */
#include "fanrack.h"
#include "lists.h"
#include "plain.h"

#include <stdbool.h>
#include <stdio.h>
#include <stdlib.h>
#include <string.h>

/* A block of just `length` bytes, so that a read past its end is seen. */
struct bytes {
    uint8_t *at;
    size_t length;
};

static unsigned long lists_compared;
static unsigned long levels_compared;
static unsigned long answered[FANRACK_TRAILER_COUNT + 1];

static struct bytes block(size_t length)
{
    struct bytes made;

    made.at = malloc(length);
    made.length = length;
    if (made.at == NULL && length > 0) {
        fprintf(stderr, "test: no memory\n");
        exit(2);
    }
    return made;
}

static struct bytes copied(const void *bytes, size_t length)
{
    struct bytes made = block(length);

    if (length > 0)
        memcpy(made.at, bytes, length);
    return made;
}

/* `list` with `put` in place of its byte at `at`; without that byte if `put` is negative. */
static struct bytes changed(struct bytes list, size_t at, int put)
{
    size_t kept = put < 0 ? 0 : 1;
    struct bytes made = block(list.length - 1 + kept);

    if (made.length > 0) {
        memcpy(made.at, list.at, at);
        memcpy(made.at + at + kept, list.at + at + 1, list.length - at - 1);
    }
    if (kept)
        made.at[at] = (uint8_t)put;
    return made;
}

/* `body` and then the trailer that counts it. */
static struct bytes trailed(struct bytes body)
{
    struct bytes made = block(body.length + TRAILER_LENGTH);

    if (body.length > 0)
        memcpy(made.at, body.at, body.length);
    put_trailer(made.at + body.length, body.length);
    return made;
}

/* What comes before the last line. */
static struct bytes body_of(struct bytes list)
{
    size_t last = list.length;

    if (last > 0 && list.at[last - 1] == '\n')
        last--;
    while (last > 0 && list.at[last - 1] != '\n')
        last--;
    return copied(list.at, last);
}

static void fail_list(const char *name, struct bytes list, int32_t got, int32_t expected)
{
    size_t i;

    printf("%s: %ld in place of %ld for these %lu bytes:\n", name, (long)got, (long)expected,
           (unsigned long)list.length);
    for (i = 0; i < list.length; i++)
        printf("%02X%c", list.at[i], i % 32 == 31 || i + 1 == list.length ? '\n' : ' ');
    exit(1);
}

/* Compares the answers on a list, and frees it. */
static void compare(const char *name, struct bytes list)
{
    struct bytes before = copied(list.at, list.length);
    int32_t got = fanrack_check_list(list.at, list.length);
    int32_t expected = plain_check_list(list.at, list.length);

    if (got != expected)
        fail_list(name, list, got, expected);
    if (list.length > 0 && memcmp(list.at, before.at, list.length) != 0) {
        printf("the check wrote to the list, which was:\n");
        fail_list(name, before, got, expected);
    }
    lists_compared++;
    answered[got]++;
    free(before.at);
    free(list.at);
}

static void compare_trailed(const char *name, struct bytes body)
{
    compare(name, trailed(body));
    free(body.at);
}

/* Compares, frees, and holds the answer to a number that is known otherwise. */
static void expect(const char *name, struct bytes list, int32_t number)
{
    int32_t got = fanrack_check_list(list.at, list.length);

    if (got != number)
        fail_list(name, list, got, number);
    compare(name, list);
}

/* How thoroughly a list is damaged: at each `step`th byte, and there by every other byte or by a few. */
struct care {
    size_t step;
    bool every_byte;
};

/* Every list that one damage makes of this one: cut off at a byte, that byte left out or changed. */
static void damage(const char *name, struct bytes list, struct care care, void (*judge)(const char *, struct bytes))
{
    static const int few[] = {0x00, 0x0a, 0x20, 'a', 0x7f, 0xff};
    size_t count = care.every_byte ? 256 : sizeof few / sizeof few[0];
    size_t at, i;

    for (at = 0; at < list.length; at += care.step) {
        judge(name, copied(list.at, at));
        judge(name, changed(list, at, -1));
        for (i = 0; i < count; i++)
            judge(name, changed(list, at, care.every_byte ? (int)i : few[i]));
    }
}

/* A damaged list mostly has a wrong trailer, so the damage is tried with the right trailer after it too. */
static void damage_twice(const char *name, struct bytes list, struct care care)
{
    struct bytes body = body_of(list);

    damage(name, list, care, compare);
    damage(name, body, care, compare_trailed);
    free(body.at);
}

static struct bytes full_list(size_t length, enum filling filling, int newline)
{
    struct bytes made = block(length);

    put_full_list(made.at, length, filling, newline);
    return made;
}

static void test_long_lists(bool small)
{
    struct bytes writes = full_list(LONGEST_LIST, WRITES, 1);
    struct bytes remarks = full_list(LONGEST_LIST, REMARKS, 1);
    struct care care = {13, false};

    if (small)
        care.step = 1009;
    damage_twice("a full list of writes", writes, care);
    damage_twice("a full list of remarks", remarks, care);
    expect("a full list of writes", writes, FANRACK_GOOD_LIST);
    expect("a full list of remarks", remarks, FANRACK_GOOD_LIST);
    expect("a full list without its last newline", full_list(LONGEST_LIST, WRITES, 0), FANRACK_GOOD_LIST);
    expect("a byte too many", full_list(LONGEST_LIST + 1, WRITES, 1), FANRACK_LIST_TOO_LONG);
    expect("a newline too many", full_list(LONGEST_LIST + 1, REMARKS, 1), FANRACK_LIST_TOO_LONG);
}

static void test_empty_list(void)
{
    expect("an empty list", block(0), FANRACK_NO_TRAILER);
    if (fanrack_check_list(NULL, 0) != FANRACK_NO_TRAILER) {
        printf("a null pointer with length 0: not %d\n", FANRACK_NO_TRAILER);
        exit(1);
    }
    lists_compared++;
}

/* The same numbers in each run. */
static unsigned long next_random(void)
{
    static uint32_t state = 2463534242u;

    state ^= state << 13;
    state ^= state >> 17;
    state ^= state << 5;
    return state;
}

/* Short lists of pieces of lines, half of them with the right trailer. */
static void test_made_up_lists(bool small)
{
    static const char *const pieces[] = {
        "w 28 60 A5\n", "w 2F FF 0a\n", "w 28 60 A5", "f 28 2\n", "f 28 A\n", "f 2", "# \n", "#\n", "# ~ ok\n",
        "# 0123456789012345678901234567890123456789012345678901234567", "t 0000\n", "t 000B\n", "t 0007", "\n",
        "w", "f", "#", "t", " ", "  ", "0", "9", "A", "F", "G", "a", "~", "\x7f", "\r", "\t", "\xff",
    };
    unsigned long left = small ? 3000 : 500000;

    for (; left > 0; left--) {
        char text[512] = "";
        unsigned long count = next_random() % 8;
        struct bytes body;

        for (; count > 0; count--)
            strcat(text, pieces[next_random() % (sizeof pieces / sizeof pieces[0])]);
        body = copied(text, strlen(text));
        if (next_random() % 2 == 0)
            compare("a made-up list", body);
        else
            compare_trailed("a made-up list", body);
    }
}

static FILE *opened(const char *path)
{
    FILE *file = fopen(path, "rb");

    if (file == NULL) {
        fprintf(stderr, "test: cannot open %s\n", path);
        exit(2);
    }
    return file;
}

static struct bytes read_list(const char *path)
{
    static uint8_t buffer[LONGEST_LIST + 1];
    FILE *file = opened(path);
    size_t length = fread(buffer, 1, sizeof buffer, file);

    fclose(file);
    return copied(buffer, length);
}

/* N of `fault N LINE OFFSET` in the verdict beside the list, and 0 for any other verdict. */
static int32_t read_verdict(const char *list_path)
{
    char path[1024];
    size_t stem = strlen(list_path) - strlen(".list");
    int number = 0;
    FILE *file;

    if (stem > sizeof path - sizeof ".out") {
        fprintf(stderr, "test: the path %s is too long\n", list_path);
        exit(2);
    }
    memcpy(path, list_path, stem);
    strcpy(path + stem, ".out");
    file = opened(path);
    if (fscanf(file, "fault %d", &number) != 1)
        number = 0;
    fclose(file);
    return number;
}

static void test_example(const char *path, bool small)
{
    struct bytes list = read_list(path);
    struct care care = {1, true};

    if (small)
        care.every_byte = false;
    damage_twice(path, list, care);
    expect(path, list, read_verdict(path));
}

static void compare_levels(int32_t on, int t, int t_min, int code, int m)
{
    int32_t got = fanrack_loop_level(on, (int8_t)t, (int8_t)t_min, (uint8_t)code, (uint8_t)m);
    int32_t expected = plain_loop_level(on, (int8_t)t, (int8_t)t_min, (uint8_t)code, (uint8_t)m);

    if (got != expected) {
        printf("level %ld in place of %ld for on %ld, t %d, t_min %d, code %d, m %d\n", (long)got, (long)expected,
               (long)on, t, t_min, code, m);
        exit(1);
    }
    levels_compared++;
}

static void test_levels(bool small)
{
    static const int32_t odd_ons[] = {-1, 2, INT32_MIN};
    static const int minimums[] = {0, 1, 17, 85, 128, 254, 255};
    int step = small ? 17 : 1;
    int t, t_min, code, m;
    size_t i;

    for (t = -128; t <= 127; t += step)
        for (t_min = -128; t_min <= 127; t_min += step) {
            for (code = 0; code <= 15; code++) {
                for (i = 0; i < sizeof minimums / sizeof minimums[0]; i++) {
                    compare_levels(0, t, t_min, code, minimums[i]);
                    compare_levels(1, t, t_min, code, minimums[i]);
                }
                for (i = 0; i < sizeof odd_ons / sizeof odd_ons[0]; i++)
                    compare_levels(odd_ons[i], t, t_min, code, 85);
            }
            for (m = 0; m <= 255; m++) {
                compare_levels(0, t, t_min, 3, m);
                compare_levels(1, t, t_min, 3, m);
            }
        }
    for (code = 0; code <= 255; code++)
        compare_levels(1, 40, 20, code, 85);
}

/* A test in which an answer never came shows nothing of it. */
static void expect_answers(void)
{
    static const int numbers[] = {FANRACK_GOOD_LIST, FANRACK_LIST_TOO_LONG, FANRACK_NO_FORM, FANRACK_NO_TRAILER,
                                  FANRACK_TRAILER_COUNT};
    size_t i;

    for (i = 0; i < sizeof numbers / sizeof numbers[0]; i++) {
        printf("  answer %2d: %lu\n", numbers[i], answered[numbers[i]]);
        if (answered[numbers[i]] == 0) {
            printf("no list was answered by %d\n", numbers[i]);
            exit(1);
        }
    }
}

int main(int argc, char **argv)
{
    bool small = argc > 1 && strcmp(argv[1], "--small") == 0;
    int first = small ? 2 : 1;
    int i;

    if (first >= argc) {
        fprintf(stderr, "usage: test [--small] LIST..\n");
        return 2;
    }
    for (i = first; i < argc; i++)
        test_example(argv[i], small);
    test_empty_list();
    test_long_lists(small);
    test_made_up_lists(small);
    test_levels(small);
    printf("%d examples; %lu lists and %lu levels compared, no difference\n", argc - first, lists_compared,
           levels_compared);
    expect_answers();
    return 0;
}
