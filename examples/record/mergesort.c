/* A parallel merge sort: `mergesort before` merges serially, `mergesort after` in parallel. With the recorder it
 * records a run; with -fopenmp and -DREC_OFF it runs on threads, and prints the least time of some runs. */
#define _XOPEN_SOURCE 700
#include "spprof_record.h"

#include <stddef.h>
#include <stdio.h>
#include <stdlib.h>
#include <string.h>
#include <time.h>

/* How many numbers there are, and how many are sorted or merged without spawns. */
enum { COUNT = 1000000, SORT_GRAIN = 8192, MERGE_GRAIN = 8192 };

static int merges_in_parallel;

static void merge_serially(const uint32_t *a, size_t n, const uint32_t *b, size_t m, uint32_t *to) {
    size_t i = 0, j = 0;
    while (i < n && j < m) {
        if (b[j] < a[i])
            *to++ = b[j++];
        else
            *to++ = a[i++];
    }
    while (i < n) *to++ = a[i++];
    while (j < m) *to++ = b[j++];
}

/* How many of the m sorted numbers are below the bound. */
static size_t count_below(const uint32_t *b, size_t m, uint32_t bound) {
    size_t low = 0, high = m;
    while (low < high) {
        size_t middle = low + (high - low) / 2;
        if (b[middle] < bound)
            low = middle + 1;
        else
            high = middle;
    }
    return low;
}

/* Cuts the longer run at its middle, and the other where that number belongs; merges both sides in parallel. */
static void merge(const uint32_t *a, size_t n, const uint32_t *b, size_t m, uint32_t *to) {
    if (n + m <= MERGE_GRAIN) {
        merge_serially(a, n, b, m, to);
    } else if (n < m) {
        merge(b, m, a, n, to);
    } else {
        size_t i = n / 2, j = count_below(b, m, a[i]);
#pragma omp task
        REC_SPAWN("merge: left", "merge", merge(a, i, b, j, to));
        REC_CALL("merge: right", "merge", merge(a + i, n - i, b + j, m - j, to + i + j));
#pragma omp taskwait
        REC_SYNC();
    }
}

/* Sorts n numbers, which stand in both arrays, into `to`. */
static void sort_serially(uint32_t *from, uint32_t *to, size_t n) {
    size_t half = n / 2;
    if (n < 2) return;
    sort_serially(to, from, half);
    sort_serially(to + half, from + half, n - half);
    merge_serially(from, half, from + half, n - half, to);
}

/* The same in parallel. */
static void sort(uint32_t *from, uint32_t *to, size_t n) {
    size_t half = n / 2;
    if (n <= SORT_GRAIN) {
        REC_CALL("sort: leaf", "sort_serially", sort_serially(from, to, n));
        return;
    }
#pragma omp task
    REC_SPAWN("sort: left", "sort", sort(to, from, half));
    REC_CALL("sort: right", "sort", sort(to + half, from + half, n - half));
#pragma omp taskwait
    REC_SYNC();
    if (merges_in_parallel)
        REC_CALL("sort: merge", "merge", merge(from, half, from + half, n - half, to));
    else
        REC_CALL("sort: merge", "merge_serially", merge_serially(from, half, from + half, n - half, to));
}

/* Fills both arrays from a linear congruential generator, always with the same numbers, and tells their sum. */
static uint64_t fill(uint32_t *numbers, uint32_t *spare) {
    uint64_t state = 1, sum = 0;
    for (size_t i = 0; i < COUNT; i++) {
        state = state * 6364136223846793005u + 1442695040888963407u;
        numbers[i] = spare[i] = (uint32_t)(state >> 32);
        sum += numbers[i];
    }
    return sum;
}

static int is_sorted(const uint32_t *numbers, uint64_t sum) {
    for (size_t i = 0; i < COUNT; i++) {
        if (i > 0 && numbers[i] < numbers[i - 1]) return 0;
        sum -= numbers[i];
    }
    return sum == 0;
}

static double seconds(void) {
    struct timespec time;
    clock_gettime(CLOCK_MONOTONIC, &time);
    return (double)time.tv_sec + 1e-9 * (double)time.tv_nsec;
}

/* Sorts the numbers, and tells how many seconds that took. */
static double time_sort(uint32_t *spare, uint32_t *numbers) {
    double from = seconds();
    REC_START("main");
#pragma omp parallel
#pragma omp single
    REC_CALL("main: sort", "sort", sort(spare, numbers, COUNT));
    REC_FINISH();
    return seconds() - from;
}

#ifdef REC_OFF
enum { RUNS = 30 };
#else
enum { RUNS = 1 }; /* one recording in a run */
#endif

int main(int argc, char **argv) {
    merges_in_parallel = argc == 2 && strcmp(argv[1], "after") == 0;
    if (!merges_in_parallel && (argc != 2 || strcmp(argv[1], "before") != 0)) {
        fprintf(stderr, "usage: mergesort before|after\n");
        return 2;
    }
    uint32_t *numbers = malloc(COUNT * sizeof *numbers), *spare = malloc(COUNT * sizeof *spare);
    if (!numbers || !spare) {
        fprintf(stderr, "mergesort: out of memory\n");
        return 4;
    }
    double least = 0;
    int good = 1;
    for (int run = 0; run < RUNS && good; run++) {
        uint64_t sum = fill(numbers, spare);
        double took = time_sort(spare, numbers);
        if (run == 0 || took < least) least = took;
        good = is_sorted(numbers, sum);
    }
    if (!good) fprintf(stderr, "mergesort: not sorted\n");
    if (RUNS > 1) printf("%.1f ms\n", 1e3 * least);
    free(numbers);
    free(spare);
    return good ? 0 : 1;
}
