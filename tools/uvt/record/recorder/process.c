/* The recorder begins and ends with its program, and goes no farther than that: not into its children. */
#define _GNU_SOURCE
#include "log.h"

#include <pthread.h>
#include <signal.h>
#include <stdlib.h>
#include <sys/prctl.h>
#include <unistd.h>

bool off = true, filtered;

static void before_fork(void) {
    lock();
}

static void after_fork(void) {
    unlock();
}

/* A child without exec has loops of which the log has only a part. */
static void in_child(void) {
    off = true;
    forget_lock();
}

/* Who is killed can't end the program that it has started: the system does. (UVT_ENDS_WITH=PROCESS: only of its own child, and of none of that
 * one's) */
static void end_with(const char *who) {
    pid_t parent = who ? (pid_t)atoi(who) : 0;
    if (parent <= 1 || getppid() != parent) return;
    prctl(PR_SET_PDEATHSIG, SIGTERM);
    if (getppid() != parent) raise(SIGTERM);
}

bool set_up(const char *named) {
    static bool forks;
    if (!name_log(named)) return false;
    ask_for_ring();
    if (!forks) pthread_atfork(before_fork, after_fork, in_child);
    forks = true;
    return true;
}

void end_log(void) {
    off = true;
    end_ring();
}

static void __attribute__((constructor)) begin(void) {
    const char *named = getenv("UVT_LOG");
    if (!named || !set_up(named)) return;
    end_with(getenv("UVT_ENDS_WITH"));
    off = false;
    hook_program();
}

static void __attribute__((destructor)) end(void) {
    if (!off) cut_log();
}
