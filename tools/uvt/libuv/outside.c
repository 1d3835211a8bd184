// What the library sees of the world while a script runs: a clock that stands still, and a poll that never sleeps. And what is
// printed, since a step from outside is done behind a line.
#define _GNU_SOURCE
#include <stdarg.h>
#include <string.h>
#include <sys/epoll.h>
#include <sys/syscall.h>
#include <time.h>
#include <unistd.h>

#include "run.h"

// Only in the thread that runs a script, and only while it does.
static __thread bool watched;

void watch(bool on) {
    watched = on;
}

void print(const char *format, ...) {
    va_list values;
    va_start(values, format);
    vfprintf(run.output, format, values);
    va_end(values);
    fputc('\n', run.output);
    run.lines++;
    run.looks = 0;
    if (run.lines >= run.script.limit)
        longjmp(run.ending, LIMITED);
    do_due_steps(false);
}

// ---- steps from outside

static void send_from_outside(int at) {
    Handle *handle = run.script.names[at].bound;
    print("out send %s = %s", run.script.names[at].text, send_to(handle));
}

static void cancel_from_outside(int at) {
    Handle *handle = run.script.names[at].bound;
    print("out cancel %s = %s", run.script.names[at].text, cancel_work(handle));
}

static void tick(uint64_t ms) {
    run.clock += ms;
    print("out tick %llu", (unsigned long long)ms);
}

// A step that can't be done is left out.
static void do_step(const Step *step) {
    if (strcmp(step->word, "tick") == 0) {
        tick(step->number);
    } else if (strcmp(step->word, "take") == 0) {
        take_work(step->number);
    } else if (strcmp(step->word, "finish") == 0) {
        finish_work(step->number);
    } else if (strcmp(step->word, "io") == 0) {
        let_come(step);
    } else if (step->name >= 0 && strcmp(step->word, "send") == 0) {
        send_from_outside(step->name);
    } else if (step->name >= 0 && strcmp(step->word, "cancel") == 0) {
        cancel_from_outside(step->name);
    }
}

// At a look at the clock only a step is done that is placed by looks.
static bool is_due(const Step *step, bool at_a_look) {
    if (at_a_look && step->looks == 0)
        return false;
    return step->lines < run.lines || (step->lines == run.lines && step->looks <= run.looks);
}

static bool do_next_step(void) {
    if (run.script.next_step == run.script.step_count)
        return false;
    do_step(&run.script.steps[run.script.next_step++]);
    return true;
}

void do_due_steps(bool at_a_look) {
    const Script *script = &run.script;
    while (!run.quiet && script->next_step < script->step_count && is_due(&script->steps[script->next_step], at_a_look))
        do_next_step();
}

// ---- the clock

int clock_gettime(clockid_t id, struct timespec *now) {
    if (!watched || (id != CLOCK_MONOTONIC && id != CLOCK_MONOTONIC_COARSE))
        return (int)syscall(SYS_clock_gettime, id, now);
    now->tv_sec = (time_t)(run.clock / 1000);
    now->tv_nsec = (long)(run.clock % 1000) * 1000000;
    run.looks++;
    do_due_steps(true);
    return 0;
}

// ---- the poll

static bool try_way(enum Way way, bool has_deadline, uint64_t deadline) {
    switch (way) {
    case JOBS:
        return do_some_work(false);
    case JOBS_DOWN:
        return do_some_work(true);
    case JUMP:
        if (!has_deadline)
            return false;
        tick(deadline - run.clock);
        return true;
    case STEPS:
        return do_next_step();
    }
    return false;
}

static void unblock(bool has_deadline, uint64_t deadline) {
    for (size_t at = 0; at < run.script.way_count; at++)
        if (try_way(run.script.ways[at], has_deadline, deadline))
            return;
    longjmp(run.ending, BLOCKED);
}

int look_for_events(int poll, struct epoll_event *events, int room) {
    return (int)syscall(SYS_epoll_pwait, poll, events, room, 0, NULL, 8);
}

static int wait_for_events(int poll, struct epoll_event *events, int room, int timeout) {
    uint64_t deadline = timeout > 0 ? run.clock + (uint64_t)timeout : 0;
    forget_what_came();
    if (timeout < 0)
        print("poll infinite");
    else
        print("poll %d", timeout);
    for (;;) {
        int found = run.came_count > 0 ? look_for_what_came(poll, events, room) : look_for_events(poll, events, room);
        if (found != 0 || timeout == 0 || (timeout > 0 && run.clock >= deadline))
            return found;
        unblock(timeout > 0, deadline);
    }
}

int epoll_pwait(int poll, struct epoll_event *events, int room, int timeout, const sigset_t *signals) {
    if (!watched || poll != run.loop->backend_fd)
        return (int)syscall(SYS_epoll_pwait, poll, events, room, timeout, signals, 8);
    return wait_for_events(poll, events, room, timeout);
}

int epoll_wait(int poll, struct epoll_event *events, int room, int timeout) {
    return epoll_pwait(poll, events, room, timeout, NULL);
}
