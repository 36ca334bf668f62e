/* Small OpenMP programs whose tasks are known in number: tests/recorder.sh records them with examples/record/openmp.c.
 * The comments behind the pragmas are how the test finds their lines. */
#define _XOPEN_SOURCE 700
#include <omp.h>
#include <pthread.h>
#include <stdint.h>
#include <stdio.h>
#include <stdlib.h>
#include <string.h>
#include <time.h>

static long fib(long n) {
    long x, y;
    if (n < 2) return n;
#pragma omp task shared(x) /* fib */
    x = fib(n - 1);
    y = fib(n - 2);
#pragma omp taskwait
    return x + y;
}

static int is_free(const char *rows, int column, int row) {
    for (int c = 0; c < column; c++)
        if (rows[c] == row || abs(rows[c] - row) == column - c) return 0;
    return 1;
}

static long queens(int size, int column, const char *rows) {
    long found[16] = {0}, sum = 0;
    if (column == size) return 1;
    for (int row = 0; row < size; row++) {
        if (!is_free(rows, column, row)) continue;
#pragma omp task shared(found) /* queens */
        {
            char more[16];
            memcpy(more, rows, 16);
            more[column] = (char)row;
            found[row] = queens(size, column + 1, more);
        }
    }
#pragma omp taskwait
    for (int row = 0; row < size; row++) sum += found[row];
    return sum;
}

static int compare(const void *a, const void *b) {
    return (*(const int *)a > *(const int *)b) - (*(const int *)a < *(const int *)b);
}

static void sort(int *numbers, int *spare, size_t n) {
    size_t half = n / 2, i = 0, j = half, k = 0;
    if (n <= 1024) {
        qsort(numbers, n, sizeof *numbers, compare);
        return;
    }
#pragma omp taskgroup
    {
#pragma omp task /* sort left */
        sort(numbers, spare, half);
#pragma omp task /* sort right */
        sort(numbers + half, spare + half, n - half);
    }
    while (i < half && j < n) spare[k++] = numbers[i] <= numbers[j] ? numbers[i++] : numbers[j++];
    while (i < half) spare[k++] = numbers[i++];
    while (j < n) spare[k++] = numbers[j++];
    memcpy(numbers, spare, n * sizeof *numbers);
}

static long sort_many(size_t n) {
    int *numbers = malloc(n * sizeof *numbers), *spare = malloc(n * sizeof *spare);
    if (!numbers || !spare) exit(4);
    uint32_t state = 1;
    for (size_t i = 0; i < n; i++) numbers[i] = (int)((state = state * 1664525u + 1013904223u) >> 8);
    sort(numbers, spare, n);
    long is_sorted = 1;
    for (size_t i = 1; i < n; i++) is_sorted &= numbers[i - 1] <= numbers[i];
    free(numbers);
    free(spare);
    return is_sorted;
}

/* LU by blocks; what a block costs matters here, not its numbers. */
enum { BLOCKS = 6, SIDE = 24 };
static double block[BLOCKS][BLOCKS][SIDE][SIDE];

static void update(int to_row, int to_column, int a, int b, int c, int d) {
    for (int i = 0; i < SIDE; i++)
        for (int j = 0; j < SIDE; j++)
            for (int k = 0; k < SIDE; k++)
                block[to_row][to_column][i][j] -= 1e-3 * block[a][b][i][k] * block[c][d][k][j];
}

static long lu(void) {
    for (int i = 0; i < BLOCKS * BLOCKS * SIDE * SIDE; i++) (&block[0][0][0][0])[i] = 1 + i % 7;
    for (int k = 0; k < BLOCKS; k++) {
        update(k, k, k, k, k, k);
        for (int j = k + 1; j < BLOCKS; j++) {
#pragma omp task firstprivate(k, j) /* lu row */
            update(k, j, k, k, k, j);
#pragma omp task firstprivate(k, j) /* lu column */
            update(j, k, k, k, j, k);
        }
#pragma omp taskwait
        for (int i = k + 1; i < BLOCKS; i++)
            for (int j = k + 1; j < BLOCKS; j++) {
#pragma omp task firstprivate(k, i, j) /* lu inner */
                update(i, j, i, k, k, j);
            }
#pragma omp taskwait
    }
    return 1;
}

static volatile long sink;

static void spin(long n) {
    for (long i = 0; i < n; i++) sink = i;
}

/* One after the other, and all beside each other. */
static long chain(void) {
    for (int i = 0; i < 32; i++) {
#pragma omp task /* chain */
        spin(20000);
#pragma omp taskwait
    }
    return 1;
}

static long flat(void) {
    for (int i = 0; i < 32; i++) {
#pragma omp task /* flat */
        spin(20000);
    }
#pragma omp taskwait
    return 1;
}

/* One of each kind. */
static long kinds(long n) {
#pragma omp task if(n > 100) /* if */
    spin(100);
#pragma omp task final(1) /* final */
    {
#pragma omp task /* included */
        spin(100);
        spin(100);
    }
#pragma omp taskloop num_tasks(4) /* taskloop */
    for (int i = 0; i < 100; i++) spin(100);
#pragma omp taskloop num_tasks(3) nogroup /* nogroup */
    for (int i = 0; i < 100; i++) spin(100);
#pragma omp task untied mergeable /* untied */
    {
        spin(100);
#pragma omp taskyield
    }
#pragma omp task depend(out : n) /* out */
    spin(100);
#pragma omp task depend(in : n) /* in */
    spin(100);
#pragma omp taskwait
    return n;
}

/* Tasks that are run at once: below a cutoff, and each. */
static long cut(long n) {
    long x, y;
    if (n < 2) return spin(20000), 1;
#pragma omp task shared(x) if(n > 7) /* cut first */
    x = cut(n - 1);
#pragma omp task shared(y) if(n > 7) /* cut second */
    y = cut(n - 2);
#pragma omp taskwait
    return x + y;
}

static long undeferred(void) {
#pragma omp task if(0) /* undeferred first */
    spin(200000);
#pragma omp task if(0) /* undeferred second */
    spin(200000);
#pragma omp task final(1) /* undeferred final */
    {
#pragma omp task /* undeferred included */
        spin(200000);
#pragma omp task if(0) /* undeferred within */
        spin(200000);
    }
    return 1;
}

/* Two tasks in one line. */
#define SPIN_IN_TASK _Pragma("omp task") spin(20000)
static long line(void) {
    SPIN_IN_TASK; SPIN_IN_TASK; /* line */
    return 1;
}

/* More tasks than ten for the one thread: the runtime makes one more, for half of them. */
static long halves(void) {
#pragma omp taskloop num_tasks(12) /* halves */
    for (int i = 0; i < 24; i++) spin(20000);
#pragma omp taskloop num_tasks(12) nogroup
    for (int i = 0; i < 24; i++) spin(100);
    return 1;
}

/* The task of the later line runs first. */
static long turns(void) {
    for (int i = 3; i >= 0; i--) {
        if (i == 0) {
#pragma omp task /* turns first */
            spin(20000);
        } else {
#pragma omp task /* turns second */
            spin(20000);
        }
    }
    return 1;
}

/* A thread that waits doesn't work. */
static long rest(void) {
#pragma omp task /* rest */
    nanosleep(&(struct timespec){0, 200000000}, NULL);
#pragma omp taskwait
    return 1;
}

static void *region(void *unused) {
#pragma omp parallel
#pragma omp single
    sink = fib(5);
    return unused;
}

int main(int argc, char **argv) {
    const char *word = argc == 2 ? argv[1] : "";
    long result = 0;
    if (strcmp(word, "none") == 0) return omp_get_max_threads() == 0;
    if (strcmp(word, "thread") == 0) {
        pthread_t thread;
        region(NULL);
        return pthread_create(&thread, NULL, region, NULL) || pthread_join(thread, NULL);
    }
#pragma omp parallel /* region */
    {
#pragma omp single
        {
            if (strcmp(word, "fib") == 0) result = fib(16);
            if (strcmp(word, "queens") == 0) result = queens(6, 0, (char[16]){0});
            if (strcmp(word, "sort") == 0) result = sort_many(1 << 16);
            if (strcmp(word, "lu") == 0) result = lu();
            if (strcmp(word, "chain") == 0) result = chain();
            if (strcmp(word, "flat") == 0) result = flat();
            if (strcmp(word, "kinds") == 0) result = kinds(5);
            if (strcmp(word, "cut") == 0) result = cut(11);
            if (strcmp(word, "undeferred") == 0) result = undeferred();
            if (strcmp(word, "line") == 0) result = line();
            if (strcmp(word, "turns") == 0) result = turns();
            if (strcmp(word, "halves") == 0) result = halves();
            if (strcmp(word, "rest") == 0) result = rest();
            if (strcmp(word, "exit") == 0) exit(3);
        }
        if (strcmp(word, "kinds") == 0) {
#pragma omp for
            for (int i = 0; i < 10; i++) spin(100);
        }
    }
    if (strcmp(word, "twice") == 0) {
        region(NULL);
        spin(20000);
        region(NULL);
    }
    printf("%ld\n", result);
    return 0;
}
