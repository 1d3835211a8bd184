/* Looks: which functions of JavaScript are under way, one each millisecond, by V8's profiler. They are written each second, so that few are
 * missing however the program ends: as JavaScript runs, even where that never ends, and as the loop waits. */
#define _GNU_SOURCE
#include "javascript.h"

#include <limits.h>
#include <semaphore.h>
#include <signal.h>
#include <stdio.h>
#include <stdlib.h>
#include <string.h>
#include <time.h>

enum { TEXT = 1000, EACH = 1000, BY_LINES = 0, WITH_NAMES = 1, LAZILY = 0, STACKS = 1 << 16, PLACES = 1 << 12, FULL = 3, DEEP = 1000 };
enum { TOO_LATE = 2000 }; /* in microseconds */

V8(isolate_here, "_ZN2v87Isolate10GetCurrentEv", void *, void)
V8(interrupt, "_ZN2v87Isolate16RequestInterruptEPFvPS0_PvES2_", void, void *, void (*)(void *, void *), void *)
V8(new_profiler, "_ZN2v811CpuProfiler3NewEPNS_7IsolateENS_22CpuProfilingNamingModeENS_23CpuProfilingLoggingModeE", void *, void *, int, int)
V8(profiler_every, "_ZN2v811CpuProfiler19SetSamplingIntervalEi", void, void *, int)
#define START "_ZN2v811CpuProfiler14StartProfilingENS_5LocalINS_6StringEEENS_16CpuProfilingModeEbj"
V8(profiler_start, START, long, void *, napi_value, int, bool, unsigned)
V8(profiler_stop, "_ZN2v811CpuProfiler13StopProfilingENS_5LocalINS_6StringEEE", void *, void *, napi_value)
V8(profiler_end, "_ZN2v811CpuProfiler7DisposeEv", void, void *)
V8(profile_end, "_ZN2v810CpuProfile6DeleteEv", void, void *)
V8(profile_count, "_ZNK2v810CpuProfile15GetSamplesCountEv", int, void *)
V8(profile_sample, "_ZNK2v810CpuProfile9GetSampleEi", void *, void *, int)
V8(profile_time, "_ZNK2v810CpuProfile18GetSampleTimestampEi", int64_t, void *, int)
V8(node_name, "_ZNK2v814CpuProfileNode18GetFunctionNameStrEv", const char *, void *)
V8(node_file, "_ZNK2v814CpuProfileNode24GetScriptResourceNameStrEv", const char *, void *)
V8(node_line, "_ZNK2v814CpuProfileNode13GetLineNumberEv", int, void *)
V8(node_below, "_ZNK2v814CpuProfileNode9GetParentEv", void *, void *)
V8(node_number, "_ZNK2v814CpuProfileNode9GetNodeIdEv", unsigned, void *)
V8(node_line_count, "_ZNK2v814CpuProfileNode15GetHitLineCountEv", unsigned, void *)
V8(node_lines, "_ZNK2v814CpuProfileNode12GetLineTicksEPNS0_8LineTickEj", bool, void *, void *, unsigned)

static bool can_look(void) {
    /* (each is asked for: what is missing is told, all of it) */
    const bool has[] = {isolate_here(), interrupt(), new_profiler(), profiler_every(), profiler_start(), profiler_stop(), profiler_end(),
                        profile_end(), profile_count(), profile_sample(), profile_time(), node_name(), node_file(), node_line(), node_below(),
                        node_number(), node_line_count(), node_lines()};
    for (size_t at = 0; at < sizeof has / sizeof *has; at++)
        if (!has[at]) return false;
    return napi_create_string_utf8 && napi_add_env_cleanup_hook;
}

/* ---- the looks of a thread */

/* A number of the log's that is known by its key. One that has no place any more is written once more, with another number. */
struct known {
    uint64_t key;
    int number;
    bool is;
    size_t in; /* the window of a ring in which it was written last */
};

struct looks {
    struct looks *next;
    napi_env env;
    void *isolate, *profiler; /* (no profiler: they have ended) */
    uv_loop_t *uv;
    unsigned profiles; /* how many there were: the number is a profile's title */
    uint64_t written, interrupted; /* when, in ms of the system's clock */
    long begun; /* callbacks of the loop, by then */
    struct known *places, *stacks;
    int place_count, stack_count;
    pthread_t thread;
    /* how long it was on a processor by the last look; for how many looks it hasn't been; and was it interrupted at the last one? */
    uint64_t ran;
    unsigned still;
    bool asked;
};

static __thread struct looks *looks_here;
static struct looks *all;
static pthread_mutex_t all_of_them = PTHREAD_MUTEX_INITIALIZER;
static int stacks_written;

static uint64_t looks_clock(void) {
    struct timespec time;
    clock_gettime(CLOCK_MONOTONIC, &time);
    return (uint64_t)time.tv_sec * 1000 + (uint64_t)time.tv_nsec / 1000000;
}

static uint64_t mix(uint64_t key, uint64_t more) {
    return (key ^ more) * 0x9E3779B97F4A7C15u + (key >> 29);
}

static uint64_t mix_text(uint64_t key, const char *text) {
    while (*text) key = mix(key, (unsigned char)*text++);
    return mix(key, 256);
}

/* Where this key is, or is to be, in a table of `size`, which is emptied where it is nearly full. */
static struct known *known_at(struct known *table, int size, int *count, uint64_t key) {
    if (*count > size / 4 * FULL) {
        memset(table, 0, (size_t)size * sizeof *table);
        *count = 0;
    }
    struct known *at = &table[key >> 32 & (unsigned)(size - 1)];
    while (at->is && at->key != key) at = at + 1 < table + size ? at + 1 : table;
    if (!at->is) *at = (struct known){.key = key, .number = -1, .is = true}, ++*count;
    return at;
}

/* (by its words: V8 may put others where these lay) */
static int place_of_node(struct looks *looks, void *node) {
    char name[TEXT], file[TEXT];
    int line = node_line()(node);
    copy_word(name, sizeof name, node_name()(node));
    copy_word(file, sizeof file, node_file()(node));
    uint64_t key = mix_text(mix_text((unsigned)line, name), file);
    struct known *found = known_at(looks->places, PLACES, &looks->place_count, key);
    if (found->number < 0) found->number = place_named(name, file, line);
    return found->number;
}

/* The line at which it was found most: 0 where V8 doesn't know. */
static int line_of_node(void *node) {
    struct { int line; unsigned count; } lines[64], *all_lines = lines, most = {0};
    unsigned count = node_line_count()(node);
    if (count > sizeof lines / sizeof *lines && !(all_lines = calloc(count, sizeof *lines))) return 0;
    if (count && node_lines()(node, all_lines, count))
        for (unsigned at = 0; at < count; at++)
            if (all_lines[at].count > most.count) most.line = all_lines[at].line, most.count = all_lines[at].count;
    if (all_lines != lines) free(all_lines);
    return most.line;
}

/* The number of the stack whose innermost function is that of the node; -1 where nothing is under way. `numbers` has those of this profile
 * that are known, from 1. */
static int stack_of(struct looks *looks, void *node, int *numbers, unsigned most, int depth) {
    if (!node || depth > DEEP) return -1;
    unsigned id = node_number()(node);
    const char *name = node_name()(node);
    if (id < most && numbers[id] != 0) return numbers[id] - 2;
    int found = -1;
    if (strcmp(name, "(root)") != 0 && strcmp(name, "(idle)") != 0) {
        int below = stack_of(looks, node_below()(node), numbers, most, depth + 1);
        int place = place_of_node(looks, node), line = line_of_node(node);
        uint64_t key = mix(mix(mix(2, (unsigned)below), (unsigned)place), (unsigned)line);
        struct known *stack = known_at(looks->stacks, STACKS, &looks->stack_count, key);
        if (stack->number < 0) stack->number = stacks_written++, stack->in = (size_t)-1;
        if (stack->in != ring_window()) {
            /* (of stacks there are ever more: in a ring they go with it, and are written anew) */
            passing = true;
            write_line(NULL, 'J', "stack %d %d %d %d", stack->number, below, place, line);
            passing = false;
            stack->in = ring_window();
        }
        found = stack->number;
    }
    if (id < most) numbers[id] = found + 2;
    return found;
}

/* A line for each row of samples that found the same stack; with how long it was from the last of them to the next one, where that came late. */
static void write_profile(struct looks *looks, struct loop *loop, void *profile) {
    int count = profile_count()(profile), last = -1;
    unsigned most = 1;
    for (int at = 0; at < count; at++) {
        unsigned id = node_number()(profile_sample()(profile, at));
        most = id >= most ? id + 1 : most;
    }
    int *numbers = calloc(most, sizeof *numbers);
    int64_t first = 0, before = 0, time = 0, from = (int64_t)loop->base * 1000;
    for (int at = 0; numbers && at <= count; at++) {
        int found = at < count ? stack_of(looks, profile_sample()(profile, at), numbers, most, 0) : -1;
        /* (a look counts up to the next one, the last one for a millisecond) */
        time = at < count ? profile_time()(profile, at) : time == first ? first + 1000 : time;
        uint64_t late = (uint64_t)(time - before);
        before = time;
        if (found == last && at < count) continue;
        uint64_t begun = (uint64_t)(first > from ? first - from : 0), took = (uint64_t)(time - first);
        if (last >= 0 && time > first && late > TOO_LATE) write_line(loop, 'J', "busy %d %u %u %u", last, begun, took, late);
        else if (last >= 0 && time > first) write_line(loop, 'J', "busy %d %u %u", last, begun, took);
        last = found;
        first = time;
    }
    free(numbers);
}

static napi_value title(struct looks *looks, unsigned number) {
    char text[16];
    napi_value found = NULL;
    snprintf(text, sizeof text, "uvt %u", number);
    napi_create_string_utf8(looks->env, text, strlen(text), &found);
    return found;
}

/* (the next profile begins before the last one ends, so that V8 keeps what it knows of its code) */
static void write_looks(struct looks *looks, bool go_on) {
    napi_scope scope;
    struct loop *loop = loop_of(looks->uv);
    if (off || !looks->profiler || !loop || napi_open_handle_scope(looks->env, &scope) != 0) return;
    inside++;
    if (go_on) profiler_start()(looks->profiler, title(looks, looks->profiles + 1), BY_LINES, true, UINT_MAX);
    void *profile = profiler_stop()(looks->profiler, title(looks, looks->profiles++));
    lock();
    write_collections(loop);
    if (profile) write_profile(looks, loop, profile);
    unlock();
    if (profile) profile_end()(profile);
    inside--;
    looks->written = looks_clock();
    looks->begun = loop->begun;
    napi_close_handle_scope(looks->env, scope);
}

/* ---- when they are written */

static sem_t wake;

/* As JavaScript runs: V8 calls this. */
static void on_interrupt(void *isolate, void *given) {
    struct looks *looks = given;
    (void)isolate;
    if (looks != looks_here) return;
    if (looks_clock() - looks->written >= EACH / 2 || ended_by) write_looks(looks, true);
    if (ended_by) end_by_signal();
}

/* (a thread of its own, for the one of JavaScript may be busy for long) */
static void *watch(void *none) {
    (void)none;
    while (true) {
        struct timespec until;
        clock_gettime(CLOCK_REALTIME, &until);
        until.tv_sec++;
        sem_timedwait(&wake, &until);
        pthread_mutex_lock(&all_of_them);
        uint64_t now = looks_clock();
        for (struct looks *it = all; it; it = it->next) {
            if (!it->profiler || (!ended_by && now - it->interrupted < EACH)) continue;
            it->interrupted = now;
            interrupt()(it->isolate, on_interrupt, it);
        }
        pthread_mutex_unlock(&all_of_them);
    }
    return NULL;
}

static void begin_watch(void) {
    static bool is;
    pthread_t thread;
    sigset_t everything, old;
    if (is || sem_init(&wake, 0, 0) != 0) return;
    is = true;
    sigfillset(&everything);
    pthread_sigmask(SIG_SETMASK, &everything, &old);
    if (pthread_create(&thread, NULL, watch, NULL) == 0) pthread_detach(thread);
    pthread_sigmask(SIG_SETMASK, &old, NULL);
}

int wait_before_looks(struct loop *loop) {
    struct looks *looks = looks_here;
    if (!looks || !looks->profiler || looks->begun == loop->begun) return -1;
    uint64_t since = looks_clock() - looks->written;
    return since >= EACH ? 0 : (int)(EACH - since);
}

bool is_looked_at(void) {
    return looks_here != NULL;
}

void look_now(void) {
    sem_post(&wake);
}

void write_looks_here(void) {
    if (looks_here) write_looks(looks_here, true);
}

/* ---- a thread that sleeps */

REAL(pthread_kill)

/* Is it to be interrupted for this look? One that does nothing stands where it stood: it is looked at as it begins to do nothing, and then ever more
 * seldom. Else its sleep would be one of many short ones, behind each of which it waits for a processor. */
static bool is_to_be_asked(struct looks *looks) {
    enum { OWN = 300000, SELDOM = 8 };
    clockid_t clock;
    struct timespec time;
    if (pthread_getcpuclockid(looks->thread, &clock) != 0 || clock_gettime(clock, &time) != 0) return true;
    uint64_t ran = (uint64_t)time.tv_sec * 1000000000 + (uint64_t)time.tv_nsec, since = ran - looks->ran;
    looks->ran = ran;
    /* (what V8 does as it is interrupted is nothing of its own) */
    if (looks->asked && since && since < OWN) return looks->asked = false;
    looks->still = since ? 0 : looks->still + 1;
    unsigned still = looks->still;
    while (still > 1 && still % SELDOM == 0) still /= SELDOM;
    return looks->asked = still <= 1;
}

/* (by V8's profiler, each time that it wants a look) */
int pthread_kill(pthread_t thread, int signal) {
    bool asks = true;
    if (signal == SIGPROF && !filtered && pthread_mutex_trylock(&all_of_them) == 0) {
        for (struct looks *it = all; it; it = it->next)
            if (it->profiler && pthread_equal(it->thread, thread)) asks = is_to_be_asked(it);
        pthread_mutex_unlock(&all_of_them);
    }
    return asks ? CALL(pthread_kill)(thread, signal) : 0;
}

/* ---- from when to when */

REAL(uv_loop_configure)

static void forget(void *given) {
    struct looks *looks = given, **at = &all;
    pthread_mutex_lock(&all_of_them);
    while (*at && *at != looks) at = &(*at)->next;
    if (*at) *at = looks->next;
    pthread_mutex_unlock(&all_of_them);
    if (looks != looks_here || !looks->profiler) return;
    write_looks(looks, false);
    profiler_end()(looks->profiler);
    looks->profiler = NULL;
}

void end_looks(void) {
    if (looks_here) forget(looks_here);
}

void begin_looks(napi_env env) {
    const char *every = getenv("UVT_LOOKS");
    int microseconds = every ? atoi(every) : 1000;
    struct looks *looks = looks_here || microseconds <= 0 || !can_look() ? NULL : calloc(1, sizeof *looks);
    if (!looks) return;
    looks->places = calloc(PLACES, sizeof *looks->places);
    looks->stacks = calloc(STACKS, sizeof *looks->stacks);
    looks->env = env;
    looks->thread = pthread_self();
    looks->isolate = isolate_here()();
    napi_scope scope;
    if (!looks->places || !looks->stacks || napi_get_uv_event_loop(env, &looks->uv) != 0 || napi_open_handle_scope(env, &scope) != 0) return;
    inside++;
    /* (the signal of V8's profiler shall not interrupt the poll: libuv leaves it out there, where it is asked to) */
    CALL(uv_loop_configure)(looks->uv, UV_LOOP_BLOCK_SIGNAL, SIGPROF);
    looks->profiler = new_profiler()(looks->isolate, WITH_NAMES, LAZILY);
    profiler_every()(looks->profiler, microseconds);
    profiler_start()(looks->profiler, title(looks, 0), BY_LINES, true, UINT_MAX);
    inside--;
    napi_close_handle_scope(env, scope);
    looks->written = looks->interrupted = looks_clock();
    looks_here = looks;
    begin_collections(looks->isolate);
    napi_add_env_cleanup_hook(env, forget, looks);
    pthread_mutex_lock(&all_of_them);
    looks->next = all;
    all = looks;
    pthread_mutex_unlock(&all_of_them);
    begin_watch();
}
