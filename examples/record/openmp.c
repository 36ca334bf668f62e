/* Records the tasks of an OpenMP program as a trace for spprof, without a change to the program: a tool for LLVM's
 * OpenMP runtime, by its interface OMPT. On one thread this runtime runs each task where it is created, so the events
 * come in serial order. spprof_record.c keeps and writes them. README.md says how to use it, and what it leaves out. */
#define _GNU_SOURCE
#include "spprof_record.h"

#include <dlfcn.h>
#include <fcntl.h>
#include <link.h>
#include <omp-tools.h>
#include <pthread.h>
#include <spawn.h>
#include <stdio.h>
#include <stdlib.h>
#include <string.h>
#include <sys/wait.h>
#include <time.h>
#include <unistd.h>

/* A parallel region, which is a called frame, or a task. */
struct frame {
    struct rec_place *place;
    const void *call; /* from where the program made the task */
    int is_called, is_final, is_open;
    const void *group, *loop; /* the taskgroup and the taskloop that run in it */
    struct frame *outer;
};
static struct frame *innermost;

enum { LONG = 1 << 16 };
static uint64_t pending, since, own; /* ticks since the last event, when they went on, and what reading them takes */
static int is_running;
static unsigned long regions, dependences, shared_loops; /* so far; of the last two the trace says nothing */
static const void *runtime;                              /* where its library begins */
static ompt_get_task_info_t get_task_info;
static pthread_t thread;
static pid_t process;

static uint64_t nanoseconds(clockid_t clock) {
    struct timespec time;
    clock_gettime(clock, &time);
    return (uint64_t)time.tv_sec * 1000000000u + (uint64_t)time.tv_nsec;
}

/* Ticks of the time-stamp counter, or nanoseconds. */
static uint64_t now(void) {
#if defined __x86_64__ || defined __i386__
    return __builtin_ia32_rdtsc();
#else
    return nanoseconds(CLOCK_MONOTONIC);
#endif
}

/* For how many ticks the thread hasn't had the processor since this was called last: others had it, or it waited. */
static uint64_t absence(void) {
    static uint64_t last_wall, last_used, last_tick;
    uint64_t tick = now(), wall = nanoseconds(CLOCK_MONOTONIC), used = nanoseconds(CLOCK_THREAD_CPUTIME_ID);
    double passed = (double)(wall - last_wall), away = passed - (double)(used - last_used);
    uint64_t ticks = away > 0 ? (uint64_t)(away / passed * (double)(tick - last_tick)) : 0;
    last_wall = wall;
    last_used = used;
    last_tick = tick;
    return ticks;
}

/* Stops the ticks. Returns whether this is the thread that is recorded. Only of long strands, as those are in which the
 * thread was interrupted, it asks for the absence. */
static int stop(void) {
    uint64_t tick = now();
    if (!pthread_equal(pthread_self(), thread)) return 0;
    uint64_t ticks = tick - since, less = own;
    if (is_running && ticks >= LONG) less += absence();
    if (is_running && ticks > less) pending += ticks - less;
    is_running = 0;
    return 1;
}

/* They go on, if a parallel region has begun. */
static void go(void) {
    is_running = regions > 0;
    since = now();
}

static void add_ticks(void) {
    rec_count(pending);
    pending = 0;
}

static void *new_bytes(size_t bytes) {
    void *found = calloc(1, bytes);
    if (!found) rec_fail("out of memory", "");
    return found;
}

/* Starts a program whose output can be read; NULL if that fails. */
static FILE *output_of(char **words, pid_t *child) {
    int ends[2];
    posix_spawn_file_actions_t actions;
    if (pipe2(ends, O_CLOEXEC) != 0) return NULL;
    posix_spawn_file_actions_init(&actions);
    posix_spawn_file_actions_adddup2(&actions, ends[1], 1);
    posix_spawn_file_actions_addopen(&actions, 2, "/dev/null", O_WRONLY, 0);
    int failed = posix_spawnp(child, words[0], &actions, NULL, words, environ);
    posix_spawn_file_actions_destroy(&actions);
    close(ends[1]);
    FILE *output = failed ? NULL : fdopen(ends[0], "r");
    if (!output) close(ends[0]);
    if (!output && !failed) waitpid(*child, NULL, 0);
    return output;
}

/* What is told of an address: the function, and the file's name and line. */
struct spot {
    char function[256], line[256];
};

/* Has a program tell of one or two addresses: each comes with a function and a line for all that is inlined there, the
 * innermost first. Of a call this one counts, and of a task's body, which is the first address, the last one. Returns
 * whether the line of the first address is known. */
static int look_up(char **words, int is_body, struct spot spots[2]) {
    char *text = NULL;
    size_t room = 0;
    pid_t child;
    FILE *output = output_of(words, &child);
    if (!output) return 0;
    for (int which = -1, i = 0; getline(&text, &room, output) > 0; i++) {
        text[strcspn(text, "\n")] = '\0';
        if (strncmp(text, "0x", 2) == 0) which++, i = -1;
        if (i < 0 || which < 0 || which > 1 || (i > 1 && !(is_body && which == 0))) continue;
        char *last = i % 2 == 1 ? strrchr(text, '/') : NULL;
        char *to = i % 2 == 1 ? spots[which].line : spots[which].function;
        snprintf(to, sizeof spots->line, "%s", last ? last + 1 : text);
    }
    free(text);
    fclose(output);
    waitpid(child, NULL, 0);
    char *line = spots[0].line, *more = strstr(line, " (discriminator"), *number = strrchr(line, ':');
    if (more) *more = '\0';
    return line[0] != '?' && number && number[1] >= '1' && number[1] <= '9';
}

/* Cuts off what the compiler adds to a function's name. Returns whether it made the function for a region or task. */
static int cut_function(char *function) {
    static const char *const added[] = {" [clone ", " (.", ".omp_", "._omp_fn"};
    int is_made = strstr(function, added[2]) || strstr(function, added[3]);
    for (int i = 0; i < 4; i++)
        if (strstr(function, added[i])) *strstr(function, added[i]) = '\0';
    if (function[0] == '?') function[0] = '\0';
    return is_made;
}

enum { NAME_BYTES = 201 };

/* A row of the tables. */
struct row {
    char site[NAME_BYTES], unlined[NAME_BYTES]; /* its name, and that without the line and number */
    int line, has_body;
    struct row *next;
};
static struct row *rows; /* by their lines */

/* An address, where its library or program begins, and the place that it is named as. */
struct known {
    const void *address, *module;
    struct rec_place place;
    struct known *next;
};

static struct known *known_of(const void *address) {
    static struct known *lists[1024];
    struct known **list = &lists[(uintptr_t)address / 4 % 1024], *found = *list;
    while (found && found->address != address) found = found->next;
    if (found) return found;
    found = new_bytes(sizeof *found);
    found->address = address;
    found->next = *list;
    *list = found;
    Dl_info info;
    if (dladdr(address, &info)) found->module = info.dli_fbase;
    return found;
}

static void put_name(char *name, const char *first, const char *function, const char *suffix) {
    snprintf(name, NAME_BYTES, "%.80s%s%.90s%s", first, function[0] ? " " : "", function, suffix);
    for (char *c = name; *c; c++)
        if (*c < 0x20 || *c > 0x7e) *c = '?';
}

/* Appends ` #2`, or a greater number. */
static void number_name(char *name, int number) {
    if (number > 1) snprintf(name + strlen(name), NAME_BYTES - strlen(name), " #%d", number);
}

/* The row of a name such as `sort.c:20 sort`. Bodies of tasks have a row each, even if the name is the same. */
static struct row *row_of(const char *line, const char *function, const char *suffix, int is_body) {
    struct row *row = new_bytes(sizeof *row), *same, **at = &rows;
    const char *colon = strrchr(line, ':');
    for (int number = 1;; number++) {
        put_name(row->site, line, function, suffix);
        number_name(row->site, number);
        for (same = rows; same && strcmp(same->site, row->site) != 0;) same = same->next;
        if (!same || !is_body || !same->has_body) break;
    }
    if (same) {
        free(row);
        same->has_body |= is_body;
        return same;
    }
    char file[256];
    snprintf(file, sizeof file, "%.*s", colon ? (int)(colon - line) : (int)strcspn(line, "+"), line);
    put_name(row->unlined, colon || function[0] ? file : line, function, suffix);
    row->line = colon ? atoi(colon + 1) : 0;
    row->has_body = is_body;
    while (*at && (*at)->line <= row->line) at = &(*at)->next;
    row->next = *at;
    *at = row;
    return row;
}

/* Names the rows without lines, if that is wanted: those with one name by numbers, in the order of their lines. */
static void leave_lines_out(void) {
    const char *names = getenv("SPPROF_NAMES");
    if (!names || strcmp(names, "function") != 0) return;
    for (struct row *row = rows; row; row = row->next) {
        int number = 1;
        for (struct row *other = rows; other != row; other = other->next)
            number += strcmp(other->unlined, row->unlined) == 0;
        strcpy(row->site, row->unlined);
        number_name(row->site, number);
    }
}

/* Names a place by a task's body, or the call that makes it, or both. The line is the body's, since a call may have one
 * of before it. The function is the call's where clang made one for the body, or the frame's where it made both. */
static void name_place(struct rec_place *place, const void *body, const void *call, const char *suffix) {
    char module[4096] = "", at[2][32];
    struct spot spots[2] = {{"", ""}, {"", ""}};
    const char *first = body ? body : (const char *)call - 1, *second = body && call ? (const char *)call - 1 : NULL;
    Dl_info info;
    struct link_map *map = NULL;
    if (dladdr1(first, &info, (void **)&map, RTLD_DL_LINKMAP) == 0) map = NULL;
    uintptr_t base = map ? map->l_addr : 0, offset = (uintptr_t)first - base;
    if (map && map->l_name[0]) snprintf(module, sizeof module, "%s", map->l_name);
    if (map && !map->l_name[0] && readlink("/proc/self/exe", module, sizeof module - 1) < 0) module[0] = '\0';
    snprintf(at[0], sizeof at[0], "0x%lx", (unsigned long)offset);
    snprintf(at[1], sizeof at[1], "0x%lx", (unsigned long)((uintptr_t)second - base));
    char *more = second ? at[1] : NULL;
    char *words[][9] = {{"addr2line", "-afiC", "-e", module, at[0], more, NULL},
                        {"llvm-symbolizer", "--output-style=GNU", "-a", "-i", "-e", module, at[0], more, NULL}};
    if (!look_up(words[0], body != NULL, spots) && !look_up(words[1], body != NULL, spots)) {
        const char *last = strrchr(module, '/');
        snprintf(spots[0].line, sizeof spots[0].line, "%.60s+0x%lx", last ? last + 1 : module, (unsigned long)offset);
    }
    const char *function = spots[0].function;
    int is_made = cut_function(spots[0].function);
    if (!function[0] && second) {
        is_made = cut_function(spots[1].function);
        function = spots[1].function;
    }
    const struct rec_place *within = innermost ? innermost->place : NULL;
    if (!function[0] && is_made && (second || !body) && within && within->function != within->site)
        function = within->function;
    struct row *row = row_of(spots[0].line, function, suffix, body != NULL);
    place->site = row->site;
    place->function = row->site;
    if (function[0]) place->function = strcpy(new_bytes(strlen(function) + 1), function);
    absence(); /* waiting for the names is none */
}

/* The place of an address in the program, which is a task's body or a call. */
static struct rec_place *place_of(const void *body, const void *call, const char *suffix) {
    struct rec_place *place = &known_of(body ? body : call)->place;
    if (!place->site) name_place(place, body, call, suffix);
    return place;
}

/* The function that a task runs, which OMPT doesn't tell: in the runtime's memory the first word behind the task's data
 * that points into a library or the program. NULL if there is none. */
static const void *body_of(const ompt_data_t *task) {
    enum { MOST_WORDS = 12 };
    static int at; /* where it was found */
    const void *const *words = (const void *const *)task;
    Dl_info info;
    for (int i = 1; i <= MOST_WORDS && !at; i++)
        if (dladdr(words[i], &info)) at = i;
    return at && known_of(words[at])->module ? words[at] : NULL;
}

/* The place of a task that begins to run. One whose body is the runtime's takes a part of a taskloop. */
static struct rec_place *place_of_task(struct frame *frame, const ompt_data_t *task) {
    static struct rec_place unknown = {.site = "taskloop nogroup", .function = "taskloop nogroup"};
    const void *call = frame->call, *body = body_of(task);
    if (known_of(call)->module == runtime) call = innermost->loop;
    if (body && known_of(body)->module == runtime) {
        frame->loop = innermost->loop;
        body = NULL;
    }
    if (body && call && known_of(body)->module != known_of(call)->module) body = NULL;
    return body || call ? place_of(body, call, "") : &unknown;
}

static void open_frame(struct frame *frame) {
    add_ticks();
    rec_enter(frame, frame->place, !frame->is_called);
    frame->is_open = 1;
    frame->outer = innermost;
    innermost = frame;
}

static void close_frame(struct frame *frame) {
    if (frame != innermost) rec_fail("a task or region ended within another", "");
    add_ticks();
    rec_leave(frame);
    innermost = frame->outer;
    free(frame);
}

static void on_region(ompt_data_t *task, const ompt_frame_t *from, ompt_data_t *region, unsigned threads, int flags,
                      const void *address) {
    (void)task, (void)from, (void)threads, (void)flags;
    if (!stop()) rec_fail("then a second thread of the program began a region, and one alone can be recorded", "");
    if (!regions++) {
        rec_start("(program)", NULL, NULL, 0);
        const char *names = getenv("SPPROF_NAMES");
        if (names && strcmp(names, "function") != 0 && strcmp(names, "line") != 0)
            rec_fail("SPPROF_NAMES must be function or line, and is ", names);
        absence();
    }
    struct frame *frame = new_bytes(sizeof *frame);
    frame->place = place_of(NULL, address, " parallel");
    frame->is_called = 1;
    open_frame(frame);
    region->ptr = frame; /* what it takes to begin and end one isn't counted */
}

static void on_region_end(ompt_data_t *region, ompt_data_t *task, int flags, const void *address) {
    (void)task, (void)flags, (void)address;
    if (!stop()) return;
    close_frame(region->ptr);
    go();
}

static void on_implicit_task(ompt_scope_endpoint_t end, ompt_data_t *region, ompt_data_t *task, unsigned threads,
                             unsigned index, int flags) {
    (void)region, (void)task, (void)index;
    if (!stop()) return;
    if (end == ompt_scope_begin && (flags & ompt_task_implicit) && threads > 1)
        rec_fail("it has more than one thread: set OMP_NUM_THREADS=1, ",
                 "and OMP_THREAD_LIMIT=1 if the program sets more itself");
    if (end == ompt_scope_begin) go();
}

/* Whether the runtime says that this task is the one that runs. */
static int is_begun(const ompt_data_t *task) {
    ompt_data_t *running = NULL;
    int thread;
    get_task_info(0, NULL, &running, NULL, NULL, &thread);
    return running == task;
}

static void on_create(ompt_data_t *parent, const ompt_frame_t *from, ompt_data_t *task, int flags, int depends,
                      const void *address) {
    (void)parent, (void)from;
    if (!stop()) return;
    if (innermost && depends) dependences++;
    if (innermost && (flags & ompt_task_explicit)) {
        struct frame *frame = new_bytes(sizeof *frame);
        frame->call = address;
        /* On one thread each task has the flag of an undeferred one; but that of an if(0) has begun when it is told. */
        frame->is_called = innermost->is_final || is_begun(task);
        frame->is_final = (flags & ompt_task_final) != 0;
        task->ptr = frame;
        return; /* it is scheduled next, and what that takes isn't counted */
    }
    if (innermost && (flags & ompt_task_taskwait)) { /* a taskwait with dependences */
        add_ticks();
        rec_sync(NULL, 0);
    }
    go();
}

static void on_schedule(ompt_data_t *prior, ompt_task_status_t status, ompt_data_t *next) {
    if (!stop()) return;
    int ends = status == ompt_task_complete || status == ompt_task_cancel || status == ompt_task_detach;
    if (ends && prior && prior->ptr) {
        close_frame(prior->ptr);
        prior->ptr = NULL;
    }
    struct frame *frame = next ? next->ptr : NULL;
    if (frame && !frame->is_open) {
        frame->place = place_of_task(frame, next);
        open_frame(frame);
    }
    go();
}

/* A taskwait and a barrier wait where they begin, and a taskgroup where it ends. */
static void on_sync(ompt_sync_region_t kind, ompt_scope_endpoint_t end, ompt_data_t *region, ompt_data_t *task,
                    const void *address) {
    (void)region, (void)task;
    if (!stop()) return;
    int is_group = kind == ompt_sync_region_taskgroup, is_end = end == ompt_scope_end;
    int waits = kind != ompt_sync_region_reduction && is_group == is_end;
    if (innermost && is_group) innermost->group = is_end ? NULL : address;
    if (innermost && waits) {
        add_ticks();
        rec_sync(NULL, 0);
    }
    if (is_end || !waits) go();
}

static void on_work(ompt_work_t kind, ompt_scope_endpoint_t end, ompt_data_t *region, ompt_data_t *task, uint64_t count,
                    const void *address) {
    (void)region, (void)task, (void)count, (void)address;
    if (!stop()) return;
    int is_single = kind == ompt_work_single_executor || kind == ompt_work_single_other;
    if (innermost && kind == ompt_work_taskloop) /* this address is within the runtime, but its taskgroup's is not */
        innermost->loop = end == ompt_scope_begin ? innermost->group : NULL;
    else if (innermost && end == ompt_scope_begin && !is_single)
        shared_loops++;
    go();
}

static void tell_count(unsigned long count, const char *what) {
    char text[32];
    snprintf(text, sizeof text, "%lu", count);
    if (count > 0) rec_say(what, text);
}

static void finish(ompt_data_t *data) {
    (void)data;
    if (getpid() != process || !stop()) return;
    if (regions == 0) rec_say("the program ran no parallel region, so no trace was kept", "");
    if (!rec_is_on()) return;
    if (innermost) rec_say("the program ended within a region, and what is open ends there: ", innermost->place->site);
    while (innermost) close_frame(innermost);
    leave_lines_out();
    tell_count(dependences, "the trace leaves out dependences, and has too much parallelism; tasks that have some: ");
    tell_count(shared_loops, "the trace has loops that a region's threads share (omp for) as one strand each: ");
    rec_finish(NULL, 0);
}

static int start(ompt_function_lookup_t look, int device, ompt_data_t *data) {
    (void)device, (void)data;
    ompt_set_callback_t set = (ompt_set_callback_t)look("ompt_set_callback");
    get_task_info = (ompt_get_task_info_t)look("ompt_get_task_info");
    Dl_info info;
    if (dladdr((void *)(uintptr_t)look, &info)) runtime = info.dli_fbase;
    thread = pthread_self();
    process = getpid();
    own = UINT64_MAX;
    for (int i = 0; i < 1000; i++) {
        uint64_t ticks = now();
        ticks = now() - ticks;
        if (ticks < own) own = ticks;
    }
    set(ompt_callback_parallel_begin, (ompt_callback_t)on_region);
    set(ompt_callback_parallel_end, (ompt_callback_t)on_region_end);
    set(ompt_callback_implicit_task, (ompt_callback_t)on_implicit_task);
    set(ompt_callback_task_create, (ompt_callback_t)on_create);
    set(ompt_callback_task_schedule, (ompt_callback_t)on_schedule);
    set(ompt_callback_sync_region, (ompt_callback_t)on_sync);
    set(ompt_callback_work, (ompt_callback_t)on_work);
    return 1;
}

/* The runtime asks for the tool when it begins. */
ompt_start_tool_result_t *ompt_start_tool(unsigned version, const char *name) {
    (void)version, (void)name;
    static ompt_start_tool_result_t result = {start, finish, {0}};
    return &result;
}
