/* A program in two parts, of which tests/recorder.sh compiles one with the option that counts blocks and the other
 * without: the work with -DWORK, and the rest. What the word asks for is in the work without macros, or with. */
#include "spprof_record.h"

#include <string.h>

long work(long n);
long spawn_work(long n);

#ifdef WORK
long work(long n) {
    volatile long sum = 0;
    for (long i = 0; i < n; i++) sum = sum + i;
    return sum;
}

long spawn_work(long n) {
    long x, y;
    REC_SPAWN("spawn: first", "work", x = work(n));
    REC_CALL("spawn: second", "work", y = work(n));
    REC_SYNC();
    return x + y;
}
#else
int main(int argc, char **argv) {
    int shall_spawn = argc > 1 && strcmp(argv[1], "spawn") == 0;
    volatile long sum = 0;
    REC_START("main");
    for (long i = 0; i < 4; i++) {
        if (shall_spawn)
            REC_CALL("main: spawn", "spawn_work", sum = sum + spawn_work(1000000));
        else
            REC_SPAWN("main: work", "work", sum = sum + work(1000000));
    }
    for (long i = 0; i < 100000; i++) REC_SPAWN("main: a part of a block", "add", sum = sum + 1);
    REC_SYNC();
    REC_FINISH();
    return 0;
}
#endif
