// Times the workloads on the engine and on the baseline, in turn, and prints what a call costs.
#include "workloads.h"
#include <inttypes.h>
#include <stdio.h>
#include <stdlib.h>
#include <time.h>

enum side { ENGINE, BASELINE, SIDES };

enum { REPETITIONS = 7 };

// What one measurement should take at least, in nanoseconds.
static const double long_enough = 60e6;

static double now(void) {
    struct timespec t;
    clock_gettime(CLOCK_MONOTONIC, &t);
    return (double)t.tv_sec * 1e9 + (double)t.tv_nsec;
}

// A workload of one, two or three numbers, on both sides.
struct row {
    const char *name;
    // How many calls one time is.
    double calls;
    uint64_t (*one[SIDES])(uint64_t);
    uint64_t (*two[SIDES])(uint64_t, size_t);
    uint64_t (*three[SIDES])(uint64_t, uint32_t, uint32_t);
    uint32_t a, b;
};

static uint64_t run(const struct row *r, enum side side, uint64_t times) {
    if (r->one[side]) return r->one[side](times);
    if (r->two[side]) return r->two[side](times, r->a);
    return r->three[side](times, r->a, r->b);
}

static double timed(const struct row *r, enum side side, uint64_t times, uint64_t *sum) {
    double from = now();
    *sum = run(r, side, times);
    return now() - from;
}

static int by_size(const void *a, const void *b) {
    double x = *(const double *)a, y = *(const double *)b;
    return (x > y) - (x < y);
}

static void stop_if_different(const struct row *r, uint64_t times, const uint64_t sum[SIDES]) {
    if (sum[ENGINE] == sum[BASELINE]) return;
    printf("%s, %" PRIu64 " times: the two sides differ, so nothing is compared (checksums %016" PRIx64 " and %016" PRIx64 ")\n", r->name, times,
           sum[ENGINE], sum[BASELINE]);
    exit(1);
}

static void measure(const struct row *r) {
    uint64_t sum[SIDES], times = 1;
    // A few small counts first: two sides that differ do so early.
    for (uint64_t few = 0; few < 5; few++) {
        for (int side = 0; side < SIDES; side++) sum[side] = run(r, side, few);
        stop_if_different(r, few, sum);
    }
    while (timed(r, ENGINE, times, &sum[ENGINE]) < long_enough) times *= 2;
    double took[SIDES][REPETITIONS];
    for (int k = 0; k < REPETITIONS; k++) {
        for (int side = 0; side < SIDES; side++) took[side][k] = timed(r, side, times, &sum[side]) / ((double)times * r->calls);
        stop_if_different(r, times, sum);
    }
    double ns[SIDES];
    for (int side = 0; side < SIDES; side++) {
        qsort(took[side], REPETITIONS, sizeof(double), by_size);
        ns[side] = took[side][REPETITIONS / 2];
    }
    printf("%-52s %9.1f %12.0f %9.1f %12.0f %7.2f\n", r->name, ns[ENGINE], 1e9 / ns[ENGINE], ns[BASELINE], 1e9 / ns[BASELINE],
           ns[ENGINE] / ns[BASELINE]);
    fflush(stdout);
}

static void heading(const char *what) {
    printf("\n%-52s %22s %22s\n", what, "engine", "baseline");
    printf("%-52s %9s %12s %9s %12s %7s\n", "", "ns a call", "calls a s", "ns a call", "calls a s", "ratio");
}

#define ONE(f) .one = {engine_##f, baseline_##f}
#define TWO(f) .two = {engine_##f, baseline_##f}
#define THREE(f) .three = {engine_##f, baseline_##f}

int main(void) {
    const struct row calls[] = {
        {"hire, 3 advances, fire, 2 advances", 7, ONE(hire_fire)},
        {"post, 2 advances, stand down, 2 advances", 6, ONE(post)},
        {"take 1, give it up, 7 advances", 1 + 8, TWO(give_up), .a = 1},
        {"take 16, give them up, 7 advances", 16 + 8, TWO(give_up), .a = 16},
        {"take 200, give them up, 7 advances", 200 + 8, TWO(give_up), .a = 200},
        {"contention, 8 workers; 97 calls in 100 are advances", 709, ONE(contention)},
        {"refused hire, 21: MAXG is G or more", 1, TWO(refused), .a = 21},
        {"refused hire, 25: the damage in the last worker", 1, TWO(refused), .a = 25},
    };
    const struct row guards[] = {
        {"G = 1", 5 * 1 + 3, THREE(scan), .a = 1, .b = 256},
        {"G = 8", 5 * 8 + 3, THREE(scan), .a = 8, .b = 256},
        {"G = 32", 5 * 32 + 3, THREE(scan), .a = 32, .b = 256},
    };
    const struct row buffers[] = {
        {"B = 16", 5 * 32 + 3, THREE(scan), .a = 32, .b = 16},
        {"B = 64", 5 * 32 + 3, THREE(scan), .a = 32, .b = 64},
        {"B = 256", 5 * 32 + 3, THREE(scan), .a = 32, .b = 256},
    };
    const struct row sets[] = {
        {"1 buffer", 1, TWO(hand_back), .a = 1},
        {"16 buffers", 1, TWO(hand_back), .a = 16},
        {"200 buffers", 1, TWO(hand_back), .a = 200},
    };
    const struct row lists[] = {
        {"1 buffer", 1, THREE(list), .a = 1, .b = 1},
        {"16 buffers", 1, THREE(list), .a = 16, .b = 16},
        {"64 buffers", 1, THREE(list), .a = 64, .b = 64},
        {"200 buffers", 1, THREE(list), .a = 200, .b = 200},
        {"256 buffers", 1, THREE(list), .a = 256, .b = 256},
        {"256 entries, refused at the last", 1, THREE(list), .a = 256, .b = 255},
        {"10,000 entries, refused at the first", 1, THREE(list), .a = 10000, .b = 0},
        // As late as can be: there are 256 buffers.
        {"10,000 entries, refused at the 257th", 1, THREE(list), .a = 10000, .b = 256},
    };
    const struct row schedules[] = {
        {"a schedule of steps, 23 of 33 calls advances", 99001, ONE(played_steps)},
        {"a schedule of refusals", 99901, ONE(played_refusals)},
        {"a schedule of questions, 16 KiB and no block", 1638, ONE(played_questions)},
    };
    const struct row handed = {"one entry stored", 1, ONE(handed)};
    heading("what a call costs, W = 8, G = 32, B = 256");
    for (size_t k = 0; k < sizeof calls / sizeof *calls; k++) measure(&calls[k]);
    heading("a give-up of nothing with its advances, B = 256");
    for (size_t k = 0; k < sizeof guards / sizeof *guards; k++) measure(&guards[k]);
    heading("a give-up of nothing with its advances, G = 32");
    for (size_t k = 0; k < sizeof buffers / sizeof *buffers; k++) measure(&buffers[k]);
    heading("the advance at label 32, by the size of the set");
    for (size_t k = 0; k < sizeof sets / sizeof *sets; k++) measure(&sets[k]);
    heading("a give-up alone, by the length of its list");
    for (size_t k = 0; k < sizeof lists / sizeof *lists; k++) measure(&lists[k]);
    heading("a call of a schedule: read, played, printed");
    for (size_t k = 0; k < sizeof schedules / sizeof *schedules; k++) measure(&schedules[k]);
    heading("the record handed in and out, and nothing else done");
    measure(&handed);
    printf("\nBoth sides gave the same answers and ended with the same records.\n");
    return 0;
}
