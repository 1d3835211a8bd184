/* What a hook in an interpreter (tools/uvt/record/python, tools/uvt/record/lua) tells: lines J of a loop, by default of the one that
 * runs in its thread, or that was seen there last. */
#define _GNU_SOURCE
#include "recorder.h"

#include <signal.h>
#include <stdlib.h>
#include <string.h>
#include <time.h>

/* In nanoseconds how long it waits between two looks; in microseconds which callbacks are looked at, and how much of one is written at once. */
enum { EACH = 1000000, BEFORE_LOOKS = 5000, WRITTEN = 100000 };

void uvt_language(const char *name);
void *uvt_loop(void);
void uvt_note(struct loop *loop, const char *text);
int uvt_place(const char *text);
int uvt_stack(int below, int place, int line);
int uvt_lua_note(void *state);
int uvt_lua_place(void *state);
int uvt_lua_language(void *state);
int uvt_lua_asking(void *state);
struct watch;
struct watch *uvt_watch(struct loop *loop, int (*look)(void));
void uvt_unwatch(struct watch *watch);

void uvt_language(const char *name) {
    lock();
    write_line(NULL, 'J', "language %s", name);
    unlock();
}

/* The loop that this thread made or asked for last. */
void *uvt_loop(void) {
    return last_loop();
}

void uvt_note(struct loop *loop, const char *text) {
    lock();
    if (!loop) loop = running_here();
    if (!loop) loop = last_loop();
    if (loop && text) write_line(loop, 'J', "%s", text), alive_note(loop, text);
    unlock();
}

/* The number of a function, or of a line of one: `NAME FILE:LINE`. */
int uvt_place(const char *text) {
    lock();
    int number = new_place_number();
    write_line(NULL, 'J', "place %d %s", number, text);
    unlock();
    return number;
}

/* The number of a stack: the one below it (-1: none), its innermost function, and the line there. */
int uvt_stack(int below, int place, int line) {
    static int stacks;
    lock();
    int number = stacks++;
    write_line(NULL, 'J', "stack %d %d %d %d", number, below, place, line);
    unlock();
    return number;
}

/* ---- looks: a thread asks the interpreter what is under way, each millisecond, in callbacks that take 5 ms or more */

struct watch {
    struct loop *loop;
    int (*look)(void); /* the number of the stack; it waits until the interpreter lets it run */
    pthread_t thread;
    volatile bool over;
    long begun; /* the callback that is under way, -1: none */
    int stack; /* that was found in it last, -1: none; and the time of that which isn't written yet, in microseconds */
    int64_t from, to;
};

static int64_t microseconds(void) {
    struct timespec time;
    clock_gettime(CLOCK_MONOTONIC, &time);
    return (int64_t)time.tv_sec * 1000000 + time.tv_nsec / 1000;
}

static void write_found(struct watch *watch) {
    int64_t base = (int64_t)watch->loop->base * 1000;
    if (watch->stack >= 0 && watch->to > watch->from && watch->from >= base)
        write_line(watch->loop, 'J', "busy %d %u %u", watch->stack, (uint64_t)(watch->from - base), (uint64_t)(watch->to - watch->from));
    watch->from = watch->to;
}

/* What is found counts from the look before on: in between the interpreter let nobody look. Where nothing is under way any more, what was found
 * before has just ended. */
static void look(struct watch *watch) {
    int stack = watch->look();
    lock();
    if (watch->loop->begun == watch->begun && !watch->loop->waiting) {
        bool ended = stack < 0;
        if (stack != watch->stack && !ended) write_found(watch);
        if (!ended) watch->stack = stack;
        watch->to = microseconds();
        if (ended || watch->to - watch->from >= WRITTEN) write_found(watch);
        if (ended) watch->stack = -1;
    }
    unlock();
}

/* Another callback begins, or the loop waits: what was found last in the one before counts up to its end. */
static void begin(struct watch *watch, int64_t now) {
    struct loop *loop = watch->loop;
    lock();
    const struct times *old = &loop->times[(watch->begun < 0 ? 0 : watch->begun) % TIMES], *new = &loop->times[loop->begun % TIMES];
    if (watch->stack >= 0 && old->begun == watch->begun && (int64_t)old->end * 1000 > watch->to) watch->to = (int64_t)old->end * 1000;
    write_found(watch);
    watch->stack = -1;
    watch->begun = loop->waiting ? -1 : loop->begun;
    watch->from = watch->to = new->begun == loop->begun ? (int64_t)new->begin * 1000 : now;
    unlock();
}

static void *watching(void *given) {
    struct watch *watch = given;
    volatile struct loop *loop = watch->loop;
    while (!watch->over) {
        nanosleep(&(struct timespec){.tv_nsec = EACH}, NULL);
        int64_t now = microseconds();
        if (loop->waiting ? watch->begun >= 0 : loop->begun != watch->begun) begin(watch, now);
        else if (!loop->waiting && (watch->stack >= 0 || now - watch->from >= BEFORE_LOOKS)) look(watch);
    }
    begin(watch, microseconds());
    return NULL;
}

struct watch *uvt_watch(struct loop *loop, int (*look)(void)) {
    struct watch *watch = off || !loop ? NULL : calloc(1, sizeof *watch);
    if (!watch) return NULL;
    *watch = (struct watch){.loop = loop, .look = look, .begun = -1, .stack = -1};
    sigset_t everything, old;
    sigfillset(&everything);
    pthread_sigmask(SIG_SETMASK, &everything, &old);
    int failed = pthread_create(&watch->thread, NULL, watching, watch);
    pthread_sigmask(SIG_SETMASK, &old, NULL);
    if (failed) {
        free(watch);
        return NULL;
    }
    return watch;
}

/* (the interpreter lets others run meanwhile) */
void uvt_unwatch(struct watch *watch) {
    if (!watch) return;
    watch->over = true;
    pthread_join(watch->thread, NULL);
    free(watch);
}

/* ---- the same for Lua, which calls them by package.loadlib. Its functions are missing in any other program. */
__attribute__((weak)) extern const char *lua_tolstring(void *, int, size_t *);
__attribute__((weak)) extern void lua_pushnumber(void *, double);

int uvt_lua_language(void *state) {
    if (lua_tolstring) uvt_language(lua_tolstring(state, 1, NULL));
    return 0;
}

/* From here on this line asks for requests of the pool; -1: none. */
int uvt_lua_asking(void *state) {
    const char *place = lua_tolstring ? lua_tolstring(state, 1, NULL) : NULL;
    asking_here = place ? atoi(place) : -1;
    return 0;
}

int uvt_lua_note(void *state) {
    if (lua_tolstring) uvt_note(NULL, lua_tolstring(state, 1, NULL));
    return 0;
}

int uvt_lua_place(void *state) {
    if (!lua_tolstring || !lua_pushnumber) return 0;
    lua_pushnumber(state, uvt_place(lua_tolstring(state, 1, NULL)));
    return 1;
}
