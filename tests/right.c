/* A program that uses the macros of examples/record as it should, in ways that compilers treat differently: they merge,
 * unroll and copy code, and put variables here or there. tests/recorder.sh records it, and nothing is told of it. */
#include "spprof_record.h"

#include <setjmp.h>
#include <stdlib.h>

static volatile long sink;

static long work(long n) {
    for (long i = 0; i < n; i++) sink = sink + i;
    return n;
}

/* Recursion, of one function and of two, which compilers inline into itself. */
static long fib(long n) {
    long x, y;
    if (n < 2) return n;
    REC_SPAWN("fib: first", "fib", x = fib(n - 1));
    REC_CALL("fib: second", "fib", y = fib(n - 2));
    REC_SYNC();
    return x + y;
}

static long odd(long n);

static long even(long n) {
    long x, y = 0;
    if (n == 0) return 1;
    REC_SPAWN("even: odd", "odd", x = odd(n - 1));
    if (n > 4) REC_CALL("even: even", "even", y = even(n - 4));
    return x + y;
}

static long odd(long n) {
    long x;
    if (n == 0) return 0;
    REC_CALL("odd: even", "even", x = even(n - 1));
    return x;
}

/* Calls at the very end. */
static void down(long n) {
    if (n > 0) {
        REC_SPAWN("down: work", "work", work(n));
        REC_CALL("down: down", "down", down(n - 1));
    }
}

/* A function that is merged into its callers, and called twice in one. */
__attribute__((always_inline)) static inline long merged(long n) {
    long x = 0;
    for (long i = 0; i < 3; i++) REC_SPAWN("merged: work", "work", x += work(n + i));
    REC_SYNC();
    return x;
}

static long call_merged(long n) {
    long x, y, z = 0;
    REC_CALL("call: first", "merged", x = merged(n));
    REC_SPAWN("call: second", "merged", y = merged(n + 1));
    for (int i = 0; i < 4; i++) REC_CALL("call: others", "merged", z += merged(i));
    return x + y + z;
}

/* Loops that are unrolled or not, with arrays of a length that isn't known, and memory of the stack. */
static long loop(long n) {
    long found = 0;
    for (long i = 0; i < n; i++) {
        char bytes[i + 1], *more = __builtin_alloca((size_t)(8 * i + 8));
        bytes[i] = (char)i;
        more[0] = 1;
        if (i % 3 == 0) continue;
        REC_SPAWN("loop: bytes", "work", found += work(bytes[i] + more[0]));
    }
    for (int i = 0; i < 4; i++) {
        REC_SPAWN("loop: four", "work", work(i + 1));
        if (sink % 2 == 0) REC_CALL("loop: even", "work", work(2));
    }
    REC_SYNC();
    return found;
}

/* One within the other, in a statement of several. */
static void nest(long n) {
    for (long i = 0; i < n; i++) {
        REC_SPAWN("nest: outer", "nest", work(i); REC_SPAWN("nest: inner", "nest", {
                      long a[] = {1, i};
                      work(a[0] + a[1]);
                  }); work(1); REC_CALL("nest: last", "work", work(2)); REC_SYNC(); work(3));
    }
    REC_SYNC();
}

/* Jumps to and fro, and a longjmp that stays within its statement. */
static jmp_buf out;

static void jump(long n) {
    volatile long i = 0;
again:
    switch (i % 3) {
    case 0: REC_SPAWN("jump: case 0", "work", work(i + 1)); break;
    case 1: REC_CALL("jump: case 1", "work", if (setjmp(out) == 0) longjmp(out, 1)); break;
    default: REC_SPAWN("jump: rest", "fib", fib(i % 5));
    }
    i = i + 1;
    if (i < n) goto again;
}

/* A leaf that may have nothing to do, and functions by their addresses. */
static void leaf(const long *found) {
    if (found) work(*found);
}

static void choose(long n) {
    void (*all[])(long) = {nest, jump, down};
    for (long i = 0; i < n; i++) {
        REC_SPAWN("choose: leaf", "leaf", leaf(i % 2 ? &i : NULL));
        REC_CALL("choose: one", "one", all[i % 3](i));
    }
}

int main(void) {
    REC_START("main");
    for (int i = 0; i < 2; i++) REC_CALL("main: fib", "fib", fib(8));
    REC_SPAWN("main: even", "even", even(12));
    REC_CALL("main: down", "down", down(5));
    REC_CALL("main: call", "call", call_merged(3));
    REC_SPAWN("main: loop", "loop", loop(12));
    REC_CALL("main: nest", "nest", nest(3));
    REC_CALL("main: jump", "jump", jump(9));
    REC_CALL("main: choose", "choose", choose(9));
    REC_SYNC();
    REC_FINISH();
    return 0;
}
