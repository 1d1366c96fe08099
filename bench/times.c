/*
 * Times each kind of frame and transfer on the proved tag and on the plain one in turn, by the processor's time that the process takes, so that
 * others on the machine are not counted. Prints a line for each kind: its name, the median of the rounds on the proved tag and on the plain one
 * in nanoseconds, and the median of the rounds' ratios, which is not the ratio of the two medians. bench/links.py reads it.
 */
#include "host.h"
#include "kinds.h"

static uint64_t time_of(const struct kind *kind, struct tag *t) {
    uint64_t began = nanoseconds();
    for (unsigned i = 0; i < kind->times; i++)
        kind->run(t);
    return nanoseconds() - began;
}

static void sort(uint64_t *list, unsigned count) {
    for (unsigned i = 1; i < count; i++)
        for (unsigned k = i; k > 0 && list[k - 1] > list[k]; k--) {
            uint64_t held = list[k];
            list[k] = list[k - 1];
            list[k - 1] = held;
        }
}

static void print_in(uint64_t number, unsigned width) {
    uint64_t over = 10;
    for (unsigned i = 1; i < width; i++, over *= 10)
        if (number < over)
            print(" ");
    print_number(number);
}

static void print_hundredths(uint64_t number) {
    print_in(number / 100, 5);
    print(number % 100 < 10 ? ".0" : ".");
    print_number(number % 100);
}

enum { ROUNDS = 31, MIDDLE = ROUNDS / 2 };

static void time_kind(const struct kind *kind) {
    uint64_t ratio[ROUNDS], first[ROUNDS], second[ROUNDS];
    prepare(kind, &proved);
    prepare(kind, &plain);
    time_of(kind, &proved);
    time_of(kind, &plain);
    for (unsigned round = 0; round < ROUNDS; round++) {
        first[round] = time_of(kind, &proved);
        second[round] = time_of(kind, &plain);
        ratio[round] = first[round] * 100 / second[round];
    }
    sort(ratio, ROUNDS);
    sort(first, ROUNDS);
    sort(second, ROUNDS);
    print(kind->name);
    print_in(first[MIDDLE] / kind->times, 9);
    print_in(second[MIDDLE] / kind->times, 9);
    print_hundredths(ratio[MIDDLE]);
    print("\n");
}

int program(void) {
    static struct kind kinds[KINDS];
    list_kinds(kinds);
    for (int k = 0; k < KINDS; k++)
        time_kind(&kinds[k]);
    return 0;
}
