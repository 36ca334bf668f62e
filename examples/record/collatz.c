/* Finds the number with the longest Collatz sequence in OpenMP tasks: `collatz loop` makes a task for each few numbers
 * in one serial loop, `collatz tree` halves the range until it has 250 numbers. */
#define _XOPEN_SOURCE 700
#include <stdint.h>
#include <stdio.h>
#include <stdlib.h>
#include <string.h>
#include <time.h>

/* How many numbers there are, how many are in a task of the loop, and in one of the tree at most. */
enum { COUNT = 16000, FEW = 8, GRAIN = 250 };

struct best {
    uint64_t number;
    unsigned steps;
};
static struct best found[COUNT / FEW];

static struct best better(struct best a, struct best b) {
    return b.steps > a.steps || (b.steps == a.steps && b.number < a.number) ? b : a;
}

static struct best search(uint64_t from, uint64_t to) {
    struct best best = {0, 0};
    for (uint64_t number = from; number < to; number++) {
        unsigned steps = 0;
        for (uint64_t at = number; at > 1; at = at % 2 ? 3 * at + 1 : at / 2) steps++;
        best = better(best, (struct best){number, steps});
    }
    return best;
}

static struct best search_in_loop(uint64_t from, uint64_t to) {
    size_t tasks = 0;
    for (uint64_t at = from; at < to; at += FEW) {
        size_t task = tasks++;
#pragma omp task
        found[task] = search(at, at + FEW < to ? at + FEW : to);
    }
#pragma omp taskwait
    struct best best = {0, 0};
    for (size_t task = 0; task < tasks; task++) best = better(best, found[task]);
    return best;
}

static struct best search_in_tree(uint64_t from, uint64_t to) {
    if (to - from <= GRAIN) return search(from, to);
    uint64_t middle = from + (to - from) / 2;
    struct best left, right;
#pragma omp task shared(left)
    left = search_in_tree(from, middle);
    right = search_in_tree(middle, to);
#pragma omp taskwait
    return better(left, right);
}

static double seconds(void) {
    struct timespec time;
    clock_gettime(CLOCK_MONOTONIC, &time);
    return (double)time.tv_sec + 1e-9 * (double)time.tv_nsec;
}

/* Searches so often, and prints the least time. */
int main(int argc, char **argv) {
    int in_loop = argc > 1 && strcmp(argv[1], "loop") == 0, times = argc == 3 ? atoi(argv[2]) : 1;
    if ((!in_loop && (argc < 2 || strcmp(argv[1], "tree") != 0)) || argc > 3 || times < 1) {
        fprintf(stderr, "usage: collatz loop|tree [TIMES]\n");
        return 2;
    }
    struct best best = {0, 0};
    double least = 0;
    for (int i = 0; i < times; i++) {
        double from = seconds();
#pragma omp parallel
#pragma omp single
        best = in_loop ? search_in_loop(1, 1 + COUNT) : search_in_tree(1, 1 + COUNT);
        double took = seconds() - from;
        if (i == 0 || took < least) least = took;
    }
    printf("%llu has %u steps\n", (unsigned long long)best.number, best.steps);
    if (times > 1) printf("%.2f ms\n", 1e3 * least);
    return 0;
}
