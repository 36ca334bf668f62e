/* The recorder. Compile the program's files with -fsanitize-coverage=trace-pc, and this one with it or without. */
#ifdef __cplusplus
#error "compile the recorder with gcc or clang, as C; programs in C++ can be linked with it"
#endif
#define _XOPEN_SOURCE 700 /* POSIX.2008, and realpath where the C library wants this for it */
#include "spprof_record.h"

#include <errno.h>
#include <fcntl.h>
#include <stdatomic.h>
#include <stdio.h>
#include <stdlib.h>
#include <string.h>
#include <sys/stat.h>
#include <time.h>
#include <unistd.h>

/* Functions that count nothing themselves, if this file is compiled with -fsanitize-coverage=trace-pc. */
#ifdef __clang__
#if __clang_major__ >= 13
#define UNCOUNTED __attribute__((no_sanitize("coverage")))
#endif
#elif defined __has_attribute
#if __has_attribute(no_sanitize_coverage) /* from gcc 12 on */
#define UNCOUNTED __attribute__((no_sanitize_coverage))
#endif
#endif
#ifndef UNCOUNTED
#ifndef REC_APART
#error "with this compiler, compile the recorder by itself, without -fsanitize-coverage and with -DREC_APART"
#endif
#define UNCOUNTED
#endif

/* What a trace can hold: an event is a record of 16 bytes, or in version 2 an item of at most 12. */
enum { RECORD_BYTES = 16, HEAD_BYTES = 24, MOST_NAME_BYTES = 200, MOST_NAMES = 65536, MOST_EVENTS = 1 << 28 };
enum { PLACE_BYTES = 512 }; /* of a place in a message */
enum tag { STRAND, CALL, SPAWN, RETURN, SYNC };

/* Exit statuses, as spprof has them. */
enum { WRONG_USE = 1, NO_FILE = 3, NO_MEMORY = 4 };

struct names {
    const char *at[MOST_NAMES];
    uint32_t count;
};
static struct names functions, sites;

static unsigned char *body; /* the events, as they will stand in the file */
static size_t events, used, room;
static int compact; /* they stand there as items, of version 2 */
static _Thread_local uint64_t blocks; /* that this thread has run since the last event */
static uint64_t *_Atomic counter;     /* that of the thread which records, while it does */
static atomic_int others;             /* whether other threads have run blocks meanwhile */
static uint64_t total;                /* blocks before the last event */
enum { BEFORE, STARTING, RECORDING, WRITING, AFTER, FAILED };
static atomic_int state;
static pid_t process; /* the one that records: its forks run clean_up too */

/* The open frames. The variable of a frame's first spawn or call is at one place on the stack in one run of the
 * function in which that stands, and elsewhere in another run. */
static struct open {
    const void *frame;
    const struct rec_place *place;
    uint64_t blocks_before, since; /* since when it runs is known of some (see `idle`) */
    size_t events_before;
    const struct rec_place *first;
    const void *first_frame;
} *frames, root;
static size_t depth, frame_room; /* without the root */
static const char *root_within;  /* the function of the program in which REC_START stands */

/* What is told at the end, of the first place where it was seen: */
static const struct rec_place *stray;     /* it stands in another function than the first of its frame */
static const char *stray_from;            /* and this is that function */
static const struct rec_place *again;     /* it came in two runs of its function in one frame */
static const struct rec_place *uncounted; /* its file was compiled without the option */

/* Of each site, while no block was counted in any of its frames nor in what these opened: a place of it, and how many
 * frames that opened none it had, for how many nanoseconds. */
static struct idle {
    const struct rec_place *place;
    uint64_t frames, took;
} idle[MOST_NAMES];
enum { LONG_FRAME = 5000, LONG_SITE = 1000000 }; /* nanoseconds that a block doesn't take */

/* Where in the program the recorder is, or was last, and where it began; without a file in other recorders. */
static struct at {
    const char *file;
    int line;
    const char *what; /* a macro or a site */
    int is_site;
} here, start;

static const char *wanted; /* the trace's file, as it was named */
static const char *target; /* its name from the root and behind links, for the program may change its folder */
static char *part;         /* the new file beside it, until it has that name; NULL if there is none */

/* gcc makes the program call this in each basic block. */
void __sanitizer_cov_trace_pc(void);
UNCOUNTED void __sanitizer_cov_trace_pc(void) {
    uint64_t *counting = atomic_load_explicit(&counter, memory_order_relaxed);
    if (counting == &blocks)
        blocks++;
    else if (counting)
        atomic_store_explicit(&others, 1, memory_order_relaxed);
}

UNCOUNTED void rec_count(uint64_t units) {
    blocks += units;
}

/* The place, such as `sort.c:20 "sort: left"`, and what follows it; nothing where there is none. */
static const char *text_of(const struct at *at, const char *after, char text[PLACE_BYTES]) {
    const char *mark = at->is_site ? "\"" : "";
    int length = at->file ? snprintf(text, PLACE_BYTES, "%.200s:%d ", at->file, at->line) : 0;
    text[length] = '\0';
    if (at->what) snprintf(text + length, (size_t)(PLACE_BYTES - length), "%s%.200s%s%s", mark, at->what, mark, after);
    return text;
}

static void say_at(const struct at *at, const char *what, const char *detail) {
    char place[PLACE_BYTES];
    fprintf(stderr, "spprof_record: %s%s%s\n", text_of(at, ": ", place), what, detail);
}

static _Noreturn void fail_at(struct at at, int status, const char *what, const char *detail) {
    state = FAILED;
    say_at(&at, what, detail);
    exit(status);
}

static _Noreturn void fail(int status, const char *what, const char *detail) {
    fail_at(here, status, what, detail);
}

static _Noreturn void fail_to_write(const char *where) {
    char place[PLACE_BYTES];
    const char *why = strerror(errno);
    state = FAILED;
    fprintf(stderr, "spprof_record: %scannot write %s%s, so no trace was kept: %s\n",
            text_of(&here, ": ", place), where, wanted, why);
    exit(NO_FILE);
}

int rec_is_on(void) {
    return state == RECORDING;
}

void rec_say(const char *what, const char *detail) {
    say_at(&(struct at){NULL, 0, NULL, 0}, what, detail);
}

void rec_fail(const char *what, const char *detail) {
    fail(WRONG_USE, what, detail);
}

static void put_word(unsigned char *at, uint32_t word) {
    for (int i = 0; i < 4; i++) at[i] = (unsigned char)(word >> (24 - 8 * i));
}

static void grow(void) {
    size_t more = room == 0 ? 1 << 16 : 2 * room;
    unsigned char *larger = more < room ? NULL : realloc(body, more);
    if (!larger) fail(NO_MEMORY, "out of memory", "");
    body = larger;
    room = more;
}

/* A record of version 1. Returns how many bytes it has. */
static size_t put_record(unsigned char *at, enum tag tag, uint32_t first, uint32_t second) {
    put_word(at, (uint32_t)tag << 24);
    put_word(at + 4, tag == STRAND ? 0 : first);
    put_word(at + 8, tag == STRAND ? first : second);
    put_word(at + 12, tag == STRAND ? second : 0);
    return RECORD_BYTES;
}

/* A number of version 2: digits of base 64, the highest first, and 64 added to the last. Returns how many there are. */
static size_t put_number(unsigned char *at, uint64_t number) {
    size_t digits = 1;
    while (digits < 11 && number >> (6 * digits) != 0) digits++;
    for (size_t i = 0; i < digits; i++) at[i] = (number >> (6 * (digits - 1 - i))) & 63;
    at[digits - 1] += 64;
    return digits;
}

/* An item of version 2. Returns how many bytes it has. */
static size_t put_item(unsigned char *at, enum tag tag, uint32_t first, uint32_t second) {
    size_t bytes = 1;
    at[0] = (unsigned char)(128 + tag);
    if (tag == STRAND) return bytes + put_number(at + bytes, (uint64_t)first << 32 | second);
    if (tag == RETURN || tag == SYNC) return bytes;
    bytes += put_number(at + bytes, first);
    return bytes + put_number(at + bytes, second);
}

static void add(enum tag tag, uint32_t first, uint32_t second) {
    if (events == MOST_EVENTS) fail(WRONG_USE, "more than 2^28 events", "");
    if (room - used < RECORD_BYTES) grow();
    used += compact ? put_item(body + used, tag, first, second) : put_record(body + used, tag, first, second);
    events++;
}

/* Adds the blocks since the last event as a strand, if there were any. */
static void add_strand(uint64_t count) {
    if (count > 0) add(STRAND, (uint32_t)(count >> 32), (uint32_t)count);
    total += count;
}

/* Why a trace can't have the name, or NULL. */
static const char *fault_of(const char *name) {
    if (!*name) return "a name is empty";
    if (strlen(name) > MOST_NAME_BYTES) return "a name has more than 200 bytes: ";
    if (strcmp(name, "(root)") == 0) return "this name is spprof's own: ";
    for (const char *c = name; *c; c++)
        if (*c < 0x20 || *c > 0x7e) return "a name has bytes that are no printable ASCII: ";
    return NULL;
}

/* The number of a name, which is added if it isn't there yet. */
static uint32_t number_of(struct names *names, const char *name) {
    for (uint32_t i = 0; i < names->count; i++)
        if (strcmp(names->at[i], name) == 0) return i;
    const char *fault = fault_of(name);
    if (fault) fail(WRONG_USE, fault, name);
    if (names->count == MOST_NAMES) fail(WRONG_USE, "more than 65,536 functions, or as many sites: ", name);
    names->at[names->count] = name;
    return names->count++;
}

/* The place of a spawn or call. */
static struct at at_place(const struct rec_place *place) {
    return (struct at){place->file, place->line, place->site, 1};
}

static int is_other_thread(void) {
    return atomic_load_explicit(&counter, memory_order_relaxed) != &blocks;
}

static _Noreturn void fail_in_other_thread(struct at at) {
    fail_at(at, WRONG_USE, "this is another thread than that of REC_START, so no trace was kept", "");
}

/* The trace of the first time stays where it is written already. */
static _Noreturn void fail_twice(struct at at, int is_kept) {
    fail_at(at, WRONG_USE, "it is reached twice, and may be only once in a run",
            is_kept ? "; the first trace was kept" : ", so no trace was kept");
}

/* Whether the run is recorded; the program ends where this is another thread than the one that records. */
static int is_recorded(struct at at) {
    if (state != RECORDING) return 0;
    if (is_other_thread()) fail_in_other_thread(at);
    here = at;
    return 1;
}

static void open_frame(const void *frame, const struct rec_place *place) {
    if (depth == frame_room) {
        size_t more = frame_room == 0 ? 1024 : 2 * frame_room;
        struct open *larger = realloc(frames, more * sizeof *frames);
        if (!larger) fail(NO_MEMORY, "out of memory", "");
        frames = larger;
        frame_room = more;
    }
    frames[depth++] = (struct open){.frame = frame, .place = place, .blocks_before = total, .events_before = events};
}

static int are_same(const char *a, const char *b) {
    return a == b || strcmp(a, b) == 0;
}

/* Notes what a spawn or call tells of functions that were called without REC_CALL. */
static void look_within(const void *frame, const struct rec_place *place) {
    struct open *in = depth > 0 ? &frames[depth - 1] : &root;
    if (!place->within) return;
    if (!in->first) {
        in->first = place;
        in->first_frame = frame;
    }
    const char *within = depth == 0 && root_within ? root_within : in->first->within;
    int is_stray = !are_same(within, place->within);
    if (is_stray && !stray) {
        stray = place;
        stray_from = within;
    }
    if (!is_stray && in->first == place && in->first_frame != frame && !again) again = place;
}

static uint64_t nanoseconds(void) {
    struct timespec time;
    clock_gettime(CLOCK_MONOTONIC, &time);
    return (uint64_t)time.tv_sec * 1000000000u + (uint64_t)time.tv_nsec;
}

/* Notes how long a frame took whose last strand has so many blocks, or that its site isn't idle. */
static void look_at_time(const struct open *open, uint64_t count) {
    struct idle *site = &idle[open->place->site_number];
    if (total + count > open->blocks_before) site->place = NULL;
    if (!site->place || events > open->events_before) return;
    site->took += nanoseconds() - open->since;
    site->frames++;
}

/* Gives a place the numbers of its names, and notes whether its file counts. */
UNCOUNTED static void learn(struct rec_place *place) {
    uint32_t sites_before = sites.count;
    place->site_number = number_of(&sites, place->site);
    place->function_number = number_of(&functions, place->function);
    place->is_known = 1;
    if (!place->try_block) return;
    if (sites.count > sites_before) idle[place->site_number].place = place;
    uint64_t before = blocks;
    place->try_block();
    if (blocks == before && !uncounted) uncounted = place;
}

/* What the functions here count themselves, where they are counted, goes with `blocks = 0`. */
UNCOUNTED void rec_enter(const void *frame, struct rec_place *place, int spawned) {
    uint64_t count = blocks;
    if (is_recorded(at_place(place))) {
        add_strand(count);
        if (!place->is_known) learn(place);
        look_within(frame, place);
        add(spawned ? SPAWN : CALL, place->site_number, place->function_number);
        open_frame(frame, place);
        if (idle[place->site_number].place) frames[depth - 1].since = nanoseconds();
    }
    blocks = 0;
}

UNCOUNTED void rec_leave(const void *frame) {
    uint64_t count = blocks;
    if (is_recorded(here)) {
        if (depth > 0) here = at_place(frames[depth - 1].place);
        if (depth == 0) here = start;
        if (depth == 0) fail(WRONG_USE, "it stands within a spawn or call", "");
        if (frames[depth - 1].frame != frame) fail(WRONG_USE, "its statement was left, as by longjmp", "");
        look_at_time(&frames[depth - 1], count);
        add_strand(count);
        add(RETURN, 0, 0);
        depth--;
    }
    blocks = 0;
}

/* Runs however the statement of a spawn or call is left, but for longjmp. */
UNCOUNTED void rec_left(struct rec_frame *frame) {
    if (!frame->is_done && state == RECORDING && depth > 0 && frames[depth - 1].frame == frame) {
        here = at_place(frames[depth - 1].place);
        fail(WRONG_USE, "its statement was left by return, break, continue, goto or an exception", "");
    }
    rec_leave(frame);
}

UNCOUNTED void rec_sync(const char *file, int line) {
    uint64_t count = blocks;
    if (is_recorded((struct at){file, line, file ? "REC_SYNC" : NULL, 0})) {
        add_strand(count);
        add(SYNC, 0, 0);
    }
    blocks = 0;
}

/* Runs when the program ends, after the functions that it gave to atexit. */
__attribute__((destructor)) static void clean_up(void) {
    char place[PLACE_BYTES];
    if (getpid() != process) return;
    if (part) unlink(part);
    if (state == WRITING) say_at(&here, "the program ended within it, so no trace was kept", "");
    if (state != RECORDING) return;
    const char *what = "no REC_FINISH was reached, so no trace was kept; the last event was at ";
    say_at(&start, what, text_of(&here, "", place));
}

/* The first bytes of a text, and another text. */
static char *joined(const char *first, size_t bytes, const char *second) {
    size_t rest = strlen(second) + 1;
    char *text = malloc(bytes + rest);
    if (!text) fail(NO_MEMORY, "out of memory", "");
    memcpy(text, first, bytes);
    memcpy(text + bytes, second, rest);
    return text;
}

/* How many bytes of a file's name are its folder's, with the slash. */
static size_t folder_bytes(const char *name) {
    const char *slash = strrchr(name, '/');
    return slash ? (size_t)(slash - name) + 1 : 0;
}

/* A file's name from the root and behind links, even if there is no such file yet; NULL if there is no such folder. */
static char *resolved(const char *name) {
    char to[4096], *found = realpath(name, NULL);
    if (found || errno != ENOENT) return found;
    struct stat there;
    size_t before = folder_bytes(name);
    ssize_t bytes = stat(name, &there) == 0 ? -1 : readlink(name, to, sizeof to - 1);
    if (bytes >= 0) { /* a link to a missing file */
        to[bytes] = '\0';
        char *next = joined(name, to[0] == '/' ? 0 : before, to);
        found = resolved(next);
        free(next);
        return found;
    }
    char *dot = joined(name, before, "."), *folder = realpath(dot, NULL);
    free(dot);
    if (!folder) return NULL;
    char *last = joined("/", 1, name + before);
    found = joined(folder, strlen(folder), last);
    free(last);
    free(folder);
    return found;
}

/* Where the program has this file open for writing itself, such as /dev/stdout; -1 if it hasn't. */
static int descriptor_of(const struct stat *file) {
    struct stat other;
    for (int at = 0; at < 256; at++) {
        int flags = fcntl(at, F_GETFL);
        if (flags < 0 || (flags & O_ACCMODE) == O_RDONLY || fstat(at, &other) != 0) continue;
        if (other.st_dev == file->st_dev && other.st_ino == file->st_ino) return at;
    }
    return -1;
}

/* Looks at what has the target's name (nothing: mode 0), and fails where the trace can't go there. Returns whether a
 * new file shall take the name, as it does from a regular file that the program doesn't have open for writing itself.
 */
static int look(struct stat *there) {
    if (stat(target, there) == 0) {
        if (S_ISREG(there->st_mode) && descriptor_of(there) >= 0) return 0;
        if (S_ISDIR(there->st_mode) || S_ISSOCK(there->st_mode)) {
            errno = S_ISDIR(there->st_mode) ? EISDIR : ENXIO;
            fail_to_write("");
        }
        if (faccessat(AT_FDCWD, target, W_OK, AT_EACCESS) != 0) fail_to_write("");
        if (!S_ISREG(there->st_mode)) return 0;
    } else {
        if (errno != ENOENT) fail_to_write("");
        there->st_mode = 0;
    }
    struct stat name;
    if (lstat(target, &name) == 0 && S_ISLNK(name.st_mode)) { /* new, or to a pipe that has been closed */
        errno = ENOENT;
        fail_to_write("");
    }
    char *folder = joined(target, folder_bytes(target), ".");
    if (faccessat(AT_FDCWD, folder, W_OK | X_OK, AT_EACCESS) != 0) fail_to_write("a file beside ");
    free(folder);
    return 1;
}

/* The first of these environment variables that has a value, or NULL. */
static const char *value_of(const char *first, const char *second) {
    const char *value = getenv(first);
    if (!value || !*value) value = getenv(second);
    return value && *value ? value : NULL;
}

UNCOUNTED void rec_start(const char *function, const char *within, const char *file, int line) {
    const char *name = value_of("SPTRACE", "SPPROF_TRACE"), *version = getenv("SPPROF_VERSION");
    struct stat there;
    struct at at = {file, line, file ? "REC_START" : NULL, 0};
    int before = BEFORE;
    if (!atomic_compare_exchange_strong(&state, &before, STARTING)) {
        if (before == FAILED) return; /* another thread ends the program */
        if (before != AFTER && is_other_thread()) fail_in_other_thread(at);
        fail_twice(at, before == AFTER);
    }
    start = here = at;
    root_within = within;
    if (version && !are_same(version, "") && !are_same(version, "1") && !are_same(version, "2"))
        fail(WRONG_USE, "SPPROF_VERSION must be 1 or 2, and is ", version);
    wanted = joined("", 0, name ? name : "spprof.sptrace");
    target = resolved(wanted);
    if (!target) fail_to_write("");
    look(&there);
    compact = version && are_same(version, "2");
    process = getpid();
    number_of(&functions, function);
    state = RECORDING;
    atomic_store(&counter, &blocks);
    blocks = 0;
}

/* Makes a new file beside the target, with the mode of the earlier one. */
static int open_part(const struct stat *earlier) {
    mode_t mode = earlier->st_mode == 0 ? 0666 : earlier->st_mode & 0777;
    for (int number = 0;; number++) {
        char last[64];
        snprintf(last, sizeof last, ".spprof-%ld-%d", (long)process, number);
        char *name = joined(target, folder_bytes(target), last);
        int file = open(name, O_WRONLY | O_CREAT | O_EXCL | O_CLOEXEC, mode);
        if (file >= 0) {
            part = name;
            /* Just that mode, whatever the umask is, if the owner and group can be the same too. */
            if (earlier->st_mode != 0 && fchown(file, earlier->st_uid, earlier->st_gid) == 0) fchmod(file, mode);
            return file;
        }
        if (errno != EEXIST) fail_to_write("a file beside ");
        free(name);
    }
}

static int open_file(void) {
    struct stat there;
    if (look(&there)) return open_part(&there);
    int is_open = S_ISREG(there.st_mode), flags = O_WRONLY | O_CLOEXEC;
    int file = is_open ? fcntl(descriptor_of(&there), F_DUPFD_CLOEXEC, 0) : open(target, flags);
    if (file < 0) fail_to_write("");
    return file;
}

static void write_bytes(int file, const void *bytes, size_t count) {
    const char *at = bytes;
    while (count > 0) {
        ssize_t written = write(file, at, count < 1 << 30 ? count : 1 << 30);
        if (written < 0 && errno != EINTR) fail_to_write("");
        if (written < 0) continue;
        at += written;
        count -= (size_t)written;
    }
}

static void write_names(int file, const struct names *names) {
    for (uint32_t i = 0; i < names->count; i++) {
        size_t length = strlen(names->at[i]);
        unsigned char bytes[2 + MOST_NAME_BYTES] = {(unsigned char)(length >> 8), (unsigned char)length};
        memcpy(bytes + 2, names->at[i], length);
        write_bytes(file, bytes, 2 + length);
    }
}

static void write_trace(void) {
    unsigned char head[HEAD_BYTES] = "SPTRACE1"; /* the root's function is number 0 */
    head[7] = compact ? '2' : '1';
    put_word(head + 8, functions.count);
    put_word(head + 12, sites.count);
    put_word(head + 20, (uint32_t)events);
    int file = open_file();
    write_bytes(file, head, HEAD_BYTES);
    write_names(file, &functions);
    write_names(file, &sites);
    write_bytes(file, body, used);
    if (close(file) != 0 || (part && rename(part, target) != 0)) fail_to_write("");
}

static void say_of(const struct rec_place *place, const char *what, const char *detail) {
    struct at at = at_place(place);
    say_at(&at, what, detail);
}

/* What may make the figures others than the user thinks. */
static void say_what_was_seen(void) {
    char text[PLACE_BYTES];
    if (stray) {
        if (stray_from == root_within)
            snprintf(text, sizeof text, " was called without REC_CALL, so in the trace its children are those of %.200s, "
                     "where REC_START stands", stray_from);
        else
            snprintf(text, sizeof text, " and %.200s ran in one frame, so one of them was called without REC_CALL",
                     stray_from);
        say_of(stray, stray->within, text);
    }
    if (again)
        say_of(again, again->within, " was called without REC_CALL, so in the trace two runs of it are one frame");
    const struct idle *site = idle, *end = idle + sites.count;
    while (site < end && !(site->place && site->took >= LONG_SITE && site->took >= LONG_FRAME * site->frames)) site++;
    if (uncounted)
        say_of(uncounted, "this file was compiled without -fsanitize-coverage=trace-pc, ",
               "so its blocks aren't counted");
    else if (site < end)
        say_of(site->place, "no block was counted in its frames, though they took long: ",
               "what they run was compiled without -fsanitize-coverage=trace-pc, as libraries are");
}

/* Writes the trace, whose last strand has so many blocks. */
static void finish(struct at at, uint64_t count) {
    if (!is_recorded(at)) return;
    if (depth > 0) {
        here = at_place(frames[depth - 1].place);
        fail(WRONG_USE, "REC_FINISH stands within it, or its statement was left, as by longjmp", "");
    }
    atomic_store(&counter, NULL);
    add_strand(count);
    if (total == 0) fail(WRONG_USE, "nothing was counted: compile the program with -fsanitize-coverage=trace-pc", "");
    state = WRITING;
    write_trace();
    state = AFTER;
    char *renamed = part;
    part = NULL; /* no file any more, should a signal end the program here */
    free(renamed);
    free(body);
    free(frames);
    if (atomic_load(&others)) say_at(&at, "other threads have run too, and are not in the trace", "");
    say_what_was_seen();
}

UNCOUNTED void rec_finish(const char *file, int line) {
    uint64_t count = blocks;
    struct at at = {file, line, file ? "REC_FINISH" : NULL, 0};
    if (state == FAILED) return; /* the program is ending */
    if (state == BEFORE) fail_at(at, WRONG_USE, "no REC_START came before it", "");
    if (state == WRITING || state == AFTER) fail_twice(at, state == AFTER);
    if (getpid() != process) fail_at(at, WRONG_USE, "it is reached in a fork", "");
    finish(at, count);
}
