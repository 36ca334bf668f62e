/* Times empty OpenMP tasks on as many threads as a program will have, and prints the burdens for spprof. README.md says
 * what they are. With two words, the work of a trace and the seconds that the run took on one thread, they are in the
 * trace's unit; without, in ticks of the time-stamp counter, as openmp.c counts. */
#define _XOPEN_SOURCE 700
#include <float.h>
#include <omp.h>
#include <stdint.h>
#include <stdio.h>
#include <stdlib.h>
#include <time.h>

enum { ROUNDS = 501, TASKS = 1000 };
static double spawned[ROUNDS], taken[ROUNDS];

static double seconds(void) {
    struct timespec time;
    clock_gettime(CLOCK_MONOTONIC, &time);
    return (double)time.tv_sec + 1e-9 * (double)time.tv_nsec;
}

static double ticks(void) {
#if defined __x86_64__ || defined __i386__
    return (double)__builtin_ia32_rdtsc();
#else
    return 1e9 * seconds();
#endif
}

static double ticks_of_a_second(void) {
    double from = seconds(), first = ticks(), now;
    do now = seconds();
    while (now < from + 0.1);
    return (ticks() - first) / (now - from);
}

static void nothing(void) {
    __asm__ volatile("");
}

/* What a task of a serial loop of spawns takes, beyond a call of what is in it, while other threads take such tasks. */
static double time_spawn(void) {
    double from = ticks();
    for (int i = 0; i < TASKS; i++) {
#pragma omp task
        nothing();
    }
#pragma omp taskwait
    double between = ticks();
    for (int i = 0; i < TASKS; i++) nothing();
    return (between - from - (ticks() - between)) / TASKS;
}

/* What it takes until another thread has run a task, and this one knows. */
static double time_takeover(void) {
    int is_done = 0;
    double from = ticks();
#pragma omp task shared(is_done)
    {
#pragma omp atomic write seq_cst
        is_done = 1;
    }
    for (int seen = 0; !seen;) {
#pragma omp atomic read seq_cst
        seen = is_done;
    }
    double to = ticks();
#pragma omp taskwait
    return to - from;
}

static int compare(const void *a, const void *b) {
    double x = *(const double *)a, y = *(const double *)b;
    return (x > y) - (x < y);
}

/* The lower quartile: what another program adds to some doesn't matter. */
static double quartile(double *values) {
    qsort(values, ROUNDS, sizeof *values, compare);
    return values[ROUNDS / 4];
}

/* Whether that is much, in rounds in order: then a quarter of them took over ten times as long as another quarter. */
static int is_busy(const double *values) {
    return values[3 * ROUNDS / 4] > 10 * values[ROUNDS / 4];
}

/* The number that is the whole word, and above 0. */
static double number_of(const char *word) {
    char *end;
    double number = strtod(word, &end);
    if (end > word && !*end && number > 0 && number <= DBL_MAX) return number;
    fprintf(stderr, "burden: WORK and SECONDS must be numbers above 0, such as 85460022 and 0.072; this is none: %s\n",
            word);
    exit(2);
}

int main(int argc, char **argv) {
    double second = ticks_of_a_second(), unit = 1;
    int threads = 0;
    if (argc != 1 && argc != 3) {
        fprintf(stderr, "usage: burden [WORK SECONDS]\n");
        return 2;
    }
    if (argc == 3) unit = number_of(argv[1]) / (number_of(argv[2]) * second);
#pragma omp parallel
#pragma omp single
    {
        threads = omp_get_num_threads();
        for (int i = 0; i < ROUNDS && threads > 1; i++) {
            spawned[i] = time_spawn();
            taken[i] = time_takeover();
        }
    }
    if (threads < 2) {
        fprintf(stderr, "burden: one thread has no burden: set OMP_NUM_THREADS\n");
        return 1;
    }
    double spawn = quartile(spawned), take = quartile(taken);
    if (!(spawn * unit >= 0.5 && take * unit >= 0.5 && (spawn + take) * unit < 1e18)) {
        fprintf(stderr, "burden: the burdens must be whole numbers from 1 on, and are %.2g and %.2g: %s\n",
                spawn * unit, take * unit, "look at WORK and SECONDS");
        return 2;
    }
    printf("%d threads, %.0f million ticks a second\n", threads, second / 1e6);
    printf("an empty task in a loop of spawns: %.0f ns, %.0f ticks\n", spawn / second * 1e9, spawn);
    printf("one until another thread has run it: %.0f ns, %.0f ticks\n", take / second * 1e9, take);
    if (is_busy(spawned) || is_busy(taken)) printf("rounds differ tenfold: run it on an idle machine\n");
    printf("--burden %.0f --join-burden %.0f\n", spawn * unit, take * unit);
    return 0;
}
