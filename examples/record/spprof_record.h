/* Records a fork-join program, run on one processor, as a trace for spprof. README.md says how to use it. */
#ifndef SPPROF_RECORD_H
#define SPPROF_RECORD_H

#include <stdint.h>

/* REC_START(function) begins the recording, in the function of that name and once in a run. REC_FINISH() ends it, in
 * the same function, and writes it to the file that the environment variable SPTRACE names, or to spprof.sptrace; in
 * version 2 of the format, if SPPROF_VERSION is 2. An earlier file of that name is replaced once the new trace is
 * whole, and not before.
 *
 * REC_SPAWN(site, function, statement) runs the statement as a spawned child, and REC_CALL as a called one: at the call
 * site of that name, in the function of that name. A function that spawns or syncs needs one of them at each of its
 * calls, also where it calls itself. Both names are string constants; places whose sites have the same name are one
 * site. The statement may be an assignment, but must not be left by return, break, goto or longjmp: the program ends
 * where it is, with a line that says so.
 *
 * REC_SYNC() waits for the children that the running function has spawned. The end of a function does so as well.
 *
 * REC_AT("left") is a name for a site such as "sort.c:20 left". */
#define REC_AT(name) __FILE__ ":" REC_TEXT(__LINE__) " " name
#define REC_TEXT(line) REC_TEXT_OF(line)
#define REC_TEXT_OF(line) #line

/* The macros' variables have numbers in their names, so that none hides another where statements are nested. */
#ifndef REC_OFF
#ifdef _OPENMP
#error "to record, compile without -fopenmp; to run on threads, with -fopenmp and -DREC_OFF"
#endif
#define REC_START(function) rec_start(function, __func__, __FILE__, __LINE__)
#define REC_FINISH() rec_finish(__FILE__, __LINE__)
#define REC_SPAWN(site, function, ...) REC_NUMBERED(__COUNTER__, 1, site, function, __VA_ARGS__)
#define REC_CALL(site, function, ...) REC_NUMBERED(__COUNTER__, 0, site, function, __VA_ARGS__)
#define REC_SYNC() rec_sync(__FILE__, __LINE__)
#define REC_NUMBERED(...) REC_FRAME(__VA_ARGS__)
#define REC_FRAME(number, spawned, site, function, ...)                                                               \
    do {                                                                                                              \
        static struct rec_place rec_here_##number = {__FILE__, __LINE__, site, function, 0, 0, 0, __func__, rec_try}; \
        __attribute__((cleanup(rec_left))) struct rec_frame rec_frame_##number = {0};                                 \
        rec_enter(&rec_frame_##number, &rec_here_##number, spawned);                                                  \
        __VA_ARGS__;                                                                                                  \
        rec_frame_##number.is_done = 1;                                                                               \
    } while (0)

/* A block of the file in which the macros stand, which counts if that file is compiled so. */
__attribute__((noinline, unused)) static void rec_try(void) {
    __asm__ volatile("");
}
#else /* the program alone, which needs no recorder */
#define REC_START(function) ((void)0)
#define REC_FINISH() ((void)0)
#define REC_SPAWN(site, function, ...) do { __VA_ARGS__; } while (0)
#define REC_CALL(site, function, ...) do { __VA_ARGS__; } while (0)
#define REC_SYNC() ((void)0)
#endif

#ifdef __cplusplus
extern "C" {
#endif

/* A place in the program that spawns or calls, and the numbers of its two names once they are known. */
struct rec_place {
    const char *file;
    int line;
    const char *site, *function;
    uint32_t site_number, function_number;
    int is_known;
    const char *within;      /* the function of the program in which it stands, or NULL */
    void (*try_block)(void); /* runs a block of its file, or NULL */
};

/* An open spawn or call, and whether its statement has come to its end. */
struct rec_frame {
    int is_done;
};

void rec_start(const char *function, const char *within, const char *file, int line);
void rec_finish(const char *file, int line);
void rec_enter(const void *frame, struct rec_place *place, int spawned);
void rec_leave(const void *frame);
void rec_left(struct rec_frame *frame);
void rec_sync(const char *file, int line);

/* For a recorder of another kind, such as openmp.c: whether the run is recorded; an addition to the strand; a message;
 * and a message that ends the program. */
int rec_is_on(void);
void rec_count(uint64_t units);
void rec_say(const char *what, const char *detail);
__attribute__((noreturn)) void rec_fail(const char *what, const char *detail);

#ifdef __cplusplus
}
#endif

#endif
