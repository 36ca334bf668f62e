/* A program for the recorder of examples/record, which ends as its word says, or uses the macros wrongly:
 * tests/recorder.sh runs it. With two words it runs the second as a command before it ends. */
#define _XOPEN_SOURCE 700
#include "spprof_record.h"

#include <pthread.h>
#include <setjmp.h>
#include <signal.h>
#include <stdio.h>
#include <stdlib.h>
#include <string.h>
#include <sys/wait.h>
#include <unistd.h>

static long fib(long n) {
    long x, y;
    if (n < 2) return n;
    REC_SPAWN("fib: first", "fib", x = fib(n - 1));
    REC_CALL("fib: second", "fib", y = fib(n - 2));
    REC_SYNC();
    return x + y;
}

static long plain(long n) {
    return n < 2 ? n : plain(n - 1) + plain(n - 2);
}

static long leave_by_return(long n) {
    REC_SPAWN("return: child", "fib", return fib(n));
    return 0;
}

static long leave_by_break(long n) {
    long sum = 0;
    for (long i = 0; i < n; i++) {
        REC_SPAWN("break: child", "fib", sum += fib(i); if (sum > 3) break);
    }
    REC_SYNC();
    return sum;
}

static long call_plainly(long n) {
    long x;
    REC_SPAWN("plainly: child", "fib", x = fib(n));
    REC_SYNC();
    return x;
}

static jmp_buf out;

static void jump(long n) {
    if (n == 0) longjmp(out, 1);
    if (n > 0) REC_CALL("jump: deeper", "jump", jump(n - 1));
}

static void *run_macros(void *unused) {
    fib(5);
    return unused;
}

static void *start_again(void *unused) {
    REC_START("in a thread");
    return unused;
}

static volatile long sum;

static void *run_plain(void *unused) {
    sum = plain(10);
    return unused;
}

static int run_thread(void *(*run)(void *)) {
    pthread_t thread;
    return pthread_create(&thread, NULL, run, NULL) || pthread_join(thread, NULL);
}

/* Uses the macros wrongly, or threads, within REC_START and REC_FINISH. */
static void misuse(const char *word) {
    static char name[201 + 1];
    memset(name, 'x', 201);
    if (strcmp(word, "in return") == 0) sum = leave_by_return(5);
    if (strcmp(word, "in break") == 0) sum = leave_by_break(5);
    if (strcmp(word, "in longjmp") == 0) REC_CALL("main: jump", "jump", if (setjmp(out) == 0) jump(3));
    if (strcmp(word, "in longjmp to the end") == 0 && setjmp(out) == 0) jump(3);
    if (strcmp(word, "in thread") == 0 && run_thread(run_macros) != 0) exit(9);
    if (strcmp(word, "in plain thread") == 0 && run_thread(run_plain) != 0) exit(9);
    if (strcmp(word, "start in thread") == 0 && run_thread(start_again) != 0) exit(9);
    if (strcmp(word, "start beside") == 0) {
        pthread_t thread;
        if (pthread_create(&thread, NULL, start_again, NULL) != 0) exit(9);
        for (;;) REC_CALL("main: beside", "fib", sum = fib(3)); /* until the thread ends the program */
    }
    if (strcmp(word, "in call") == 0) sum = call_plainly(5);
    if (strcmp(word, "in start") == 0) REC_START("main");
    if (strcmp(word, "in name") == 0) REC_CALL("", "f", fib(3));
    if (strcmp(word, "in function") == 0) REC_CALL("main: f", name, fib(3));
    if (strcmp(word, "in root") == 0) REC_CALL("(root)", "f", fib(3));
    if (strcmp(word, "in text") == 0) REC_CALL("tab\t", "f", fib(3));
    if (strcmp(word, "in finish") == 0) REC_SPAWN("main: finish", "f", REC_FINISH());
}

static void finish(void) {
    REC_FINISH();
}

static void leave(int number) {
    (void)number;
    exit(0);
}

int main(int argc, char **argv) {
    const char *end = argc > 1 ? argv[1] : "finish";
    if (strncmp(end, "atexit", 6) == 0 && atexit(finish) != 0) return 1;
    if (strcmp(end, "signal") == 0) {
        signal(SIGXFSZ, leave);
        signal(SIGTERM, leave);
    }
    if (strcmp(end, "no start") == 0) REC_FINISH();
    if (strcmp(end, "start within") == 0) REC_CALL("main: start", "f", REC_START("main"));
    REC_START("main");
    REC_CALL("main: fib", "fib", fib(10));
    misuse(end);
    if (argc > 2 && system(argv[2]) != 0) return 1;
    if (strcmp(end, "atexit") == 0) return 0;
    if (strcmp(end, "atexit after a fault") == 0) REC_CALL("", "atexit", fib(3));
    if (strcmp(end, "exit") == 0) exit(0);
    if (strcmp(end, "return") == 0) return 0;
    if (strcmp(end, "_exit") == 0) _exit(0);
    if (strcmp(end, "exec") == 0) return execl("/bin/true", "true", (char *)NULL);
    if (strcmp(end, "move") == 0 && chdir("/") != 0) return 1;
    if (strcmp(end, "close") == 0) close(1);
    if (strcmp(end, "fork") == 0) {
        if (fork() == 0) exit(0);
        wait(NULL);
    }
    REC_FINISH();
    if (strcmp(end, "finish twice") == 0) REC_FINISH();
    if (strcmp(end, "start twice") == 0) REC_START("main");
    return 0;
}
