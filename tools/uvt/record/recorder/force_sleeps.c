/* Where each thread sleeps, those of children too, and whether anybody from outside could come. */
#define _GNU_SOURCE
#include "force_hangs.h"

#include <dirent.h>
#include <errno.h>
#include <fcntl.h>
#include <linux/futex.h>
#include <stdio.h>
#include <stdlib.h>
#include <string.h>
#include <sys/syscall.h>
#include <sys/time.h>
#include <sys/wait.h>
#include <unistd.h>

/* What a call of the system waits for, where that may come from outside; NULL of one that waits until a time, or that isn't known. */
static const char *awaited(unsigned long call, const unsigned long *words) {
    switch (call) {
    case SYS_epoll_pwait:
#ifdef SYS_epoll_wait
    case SYS_epoll_wait:
#endif
        return (int)words[3] == -1 ? "files or sockets" : NULL;
#ifdef SYS_poll
    case SYS_poll: return (int)words[2] == -1 ? "files or sockets" : NULL;
    case SYS_select: return words[4] ? NULL : "files or sockets";
    case SYS_pause: return "a signal";
#endif
    case SYS_ppoll: return words[2] ? NULL : "files or sockets";
    case SYS_pselect6: return words[4] ? NULL : "files or sockets";
    case SYS_read: case SYS_readv: case SYS_pread64: return "a file, a pipe or a socket";
    case SYS_write: case SYS_writev: case SYS_sendto: case SYS_sendmsg: return "whoever reads what it writes";
    case SYS_recvfrom: case SYS_recvmsg: return "a socket";
    case SYS_accept: case SYS_accept4: case SYS_connect: return "a connection";
    case SYS_wait4: case SYS_waitid: return "the end of a process";
    case SYS_rt_sigsuspend: return "a signal";
    case SYS_rt_sigtimedwait: return words[2] ? NULL : "a signal";
    default: return NULL;
    }
}

struct thread look_at(int process, int id) {
    char name[64], text[256];
    struct thread found = {.process = process, .id = id};
    unsigned long call, words[6];
    snprintf(name, sizeof name, "/proc/%d/task/%d/syscall", process, id);
    int file = open(name, O_RDONLY | O_CLOEXEC);
    if (file < 0) return found;
    ssize_t length = read(file, text, sizeof text - 1);
    close(file);
    text[length < 0 ? 0 : length] = 0;
    int count = sscanf(text, "%lu %lx %lx %lx %lx %lx %lx", &call, &words[0], &words[1], &words[2], &words[3], &words[4], &words[5]);
    if (count != 7 || state_in(process, id) != 'S') return found;
    if (call == SYS_futex) {
        int op = (int)words[1] & FUTEX_CMD_MASK;
        bool waits = op == FUTEX_WAIT || op == FUTEX_WAIT_BITSET || op == FUTEX_LOCK_PI;
        if (waits && !words[3]) found.sleep = FOR_EVER, found.futex = words[0], found.value = (int)words[2];
        return found;
    }
    found.what = awaited(call, words);
    if (found.what) found.sleep = OUTSIDE;
    return found;
}

/* The signals that the program has handlers for. */
static unsigned long caught_signals(void) {
    char text[4096];
    int file = open("/proc/self/status", O_RDONLY | O_CLOEXEC);
    if (file < 0) return 0;
    ssize_t length = read(file, text, sizeof text - 1);
    close(file);
    text[length < 0 ? 0 : length] = 0;
    const char *found = strstr(text, "SigCgt:");
    return found ? strtoul(found + 7, NULL, 16) : 0;
}

bool is_no_help(int thread) {
    return thread == own_id() || !state_of(thread) || look_at(getpid(), thread).sleep == FOR_EVER;
}

/* (a worker at its gate, where there is nothing that it could take) */
static bool waits_for_work(int id) {
    for (int at = 0; at < pool_count; at++)
        if (pool[at].thread == id) return pool[at].place == AT_TAKE && how_many_wait() == 0;
    return false;
}

/* ---- all threads, and the children */

/* Does it for each number that a folder's files have as their names. */
#define EACH_NUMBER(FOLDER, NUMBER, DO)                                                                   \
    do {                                                                                                  \
        char room[4096];                                                                                  \
        int folder = open(FOLDER, O_RDONLY | O_DIRECTORY | O_CLOEXEC), NUMBER;                            \
        for (long got; folder >= 0 && (got = syscall(SYS_getdents64, folder, room, sizeof room)) > 0;)    \
            for (long at = 0; at < got; at += ((struct dirent64 *)(room + at))->d_reclen)                 \
                if ((NUMBER = atoi(((struct dirent64 *)(room + at))->d_name)) > 0) DO;                    \
        if (folder >= 0) close(folder);                                                                   \
    } while (0)

static struct thread look_at_own(int id) {
    struct thread thread = look_at(getpid(), id);
    bool is_leaders = id == leader_id;
    if (state == FORCING && waits_for_work(id)) thread.sleep = AT_GATE;
    else if (is_leaders && goes_round()) thread.sleep = GOES_ROUND;
    else if (is_leaders && ((state == FORCING && idle_poll) || (thread.what && forced->waiting))) thread.sleep = IN_POLL;
    return thread;
}

int all_threads(struct thread *found) {
    int count = 0;
    EACH_NUMBER("/proc/self/task", id, {
        if (id == watch_id || count > THREADS) continue;
        if (count < THREADS) found[count] = look_at_own(id);
        count++;
    });
    return count > THREADS ? 0 : count;
}

/* Adds who is a child of a thread. False where nobody knows. */
static bool add_children(int process, int thread, int *found, int *count) {
    char name[64], text[1024];
    snprintf(name, sizeof name, "/proc/%d/task/%d/children", process, thread);
    int file = open(name, O_RDONLY | O_CLOEXEC);
    if (file < 0) return false;
    ssize_t length = read(file, text, sizeof text - 1);
    close(file);
    text[length < 0 ? 0 : length] = 0;
    for (char *next = text; *next;) {
        char *end;
        long child = strtol(next, &end, 10);
        if (end == next) break;
        next = end;
        if (child > 0 && *count < PROCESSES) found[(*count)++] = (int)child;
    }
    return length >= 0 && length < (ssize_t)sizeof text - 1 && *count < PROCESSES;
}

int sleeping_children(int *found) {
    siginfo_t none;
    int count = 0;
    bool known = true;
    if (syscall(SYS_waitid, P_ALL, 0, &none, WEXITED | WNOHANG | WNOWAIT, NULL) < 0 && errno == ECHILD) return 0;
    EACH_NUMBER("/proc/self/task", id, known &= add_children(getpid(), id, found, &count));
    for (int which = 0; known && which < count; which++) {
        char name[64];
        int process = found[which];
        snprintf(name, sizeof name, "/proc/%d/task", process);
        EACH_NUMBER(name, id, {
            char is = state_in(process, id);
            known &= is == 'Z' || is == 'T' || is == 'X' || look_at(process, id).sleep != AWAKE;
            known &= add_children(process, id, found, &count);
        });
    }
    return known ? count : -1;
}

bool has_outside(void) {
    const uv_loop_t *uv = forced->uv;
    for (unsigned at = 0; uv && at < uv->nwatchers; at++) {
        const uv__io_t *it = uv->watchers[at];
        if (it && it != &uv->async_io_watcher && it != &uv->signal_io_watcher) return true;
    }
    struct itimerval timer = {0};
    getitimer(ITIMER_REAL, &timer);
    /* (what a fault raises, a child's end, and what glibc keeps for itself, come from nobody outside) */
    static const int OWN[] = {SIGILL, SIGTRAP, SIGABRT, SIGBUS, SIGFPE, SIGSEGV, SIGPIPE, SIGCHLD, SIGSYS, 32, 33};
    unsigned long caught = caught_signals();
    for (size_t at = 0; at < sizeof OWN / sizeof *OWN; at++) caught &= ~(1ul << (OWN[at] - 1));
    return caught || timer.it_value.tv_sec || timer.it_value.tv_usec;
}
