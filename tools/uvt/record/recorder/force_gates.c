/* The gates at which the program's threads wait for their step, and the leader's own waits for them. */
#define _GNU_SOURCE
#include "force.h"

#include <dirent.h>
#include <fcntl.h>
#include <stdio.h>
#include <stdlib.h>
#include <string.h>
#include <sys/syscall.h>
#include <unistd.h>

bool stops;
long progress;

/* ---- gates: one mutex, one condition
 *
 * Who waits, waits in naps of 10 ms. On a busy machine a thread may get no processor for long: so a nap counts only where no thread of the
 * program runs, except for those at gates. (A debugger that stops all threads stops who counts, too.) */

pthread_mutex_t gate = PTHREAD_MUTEX_INITIALIZER;
pthread_cond_t changed = PTHREAD_COND_INITIALIZER;
enum { GATES = 1024 };
int patience = PATIENCE;
static int at_gates[GATES]; /* the threads that wait at a gate */
static int gate_count;
int leader_id;
int leads;

int own_id(void) {
    static __thread int id;
    if (!id) id = (int)syscall(SYS_gettid);
    return id;
}

void wait_a_little(void) {
    uint64_t until = real_ns(CLOCK_REALTIME) + 10000000;
    struct timespec time = {(time_t)(until / 1000000000), (long)(until % 1000000000)};
    pthread_cond_timedwait(&changed, &gate, &time);
}

/* What the system says of a thread: R, S, .. */
char state_in(int process, int thread) {
    char name[64], text[512];
    snprintf(name, sizeof name, "/proc/%d/task/%d/stat", process, thread);
    int descriptor = open(name, O_RDONLY | O_CLOEXEC);
    if (descriptor < 0) return 0;
    ssize_t length = read(descriptor, text, sizeof text - 1);
    close(descriptor);
    text[length < 0 ? 0 : length] = 0;
    const char *behind = strrchr(text, ')');
    return behind && behind[1] == ' ' ? behind[2] : 0;
}

char state_of(int thread) {
    return state_in(getpid(), thread);
}

bool is_awake(int thread) {
    char state = state_of(thread);
    return thread != own_id() && state && state != 'S';
}

static bool is_at_gate(int thread) {
    for (int at = 0; at < gate_count; at++)
        if (at_gates[at] == thread) return true;
    return false;
}

void come_to_gate(void) {
    if (gate_count < GATES) at_gates[gate_count++] = own_id();
}

void leave_gate(void) {
    for (int at = 0; at < gate_count; at++)
        if (at_gates[at] == own_id()) {
            at_gates[at] = at_gates[--gate_count];
            return;
        }
}

/* Is there any other thread of the program, except for those at gates, of which this is so? */
static bool is_any(bool (*so)(int)) {
    /* (opendir would ask for memory, and whoever gives that may look at the clock) */
    char room[4096];
    bool found = false;
    int folder = open("/proc/self/task", O_RDONLY | O_DIRECTORY | O_CLOEXEC);
    if (folder < 0) return false;
    for (long got; !found && (got = syscall(SYS_getdents64, folder, room, sizeof room)) > 0;)
        for (long at = 0; !found && at < got; at += ((struct dirent64 *)(room + at))->d_reclen) {
            int thread = atoi(((struct dirent64 *)(room + at))->d_name);
            if (thread <= 0 || thread == own_id() || thread == watch_id || is_at_gate(thread)) continue;
            found = so(thread);
        }
    close(folder);
    return found;
}

static bool runs(int thread) {
    char its = state_of(thread);
    return its == 'R' || its == 'D';
}

static bool can_come(int thread) {
    return !is_no_help(thread);
}

/* Does any other thread of the program run, or could it? */
bool somebody_runs(void) {
    return is_any(runs);
}

bool somebody_can_come(void) {
    return is_any(can_come);
}

/* ---- the leader waits */

static void *given; /* Python's lock, which the leader has given up */

/* (with the gate's mutex) One more nap; false where it has waited long enough. Who is to come may need Python's lock, which the leader has in a
 * callback: it gives it up until what it waits for is done, as it had lost it in the run of which the session is. */
bool stays_on(struct stay *stay) {
    if (stay->waited >= patience || stay->naps++ >= AT_MOST) return false;
    if (stay->naps == 2 && !given) {
        pthread_mutex_unlock(&gate);
        given = give_interpreter();
        pthread_mutex_lock(&gate);
    }
    wait_a_little();
    if (stay->seen != progress) stay->seen = progress, stay->waited = 0;
    else if (!somebody_runs()) stay->waited += stay->for_comer && !somebody_can_come() ? QUICKLY : 1;
    return true;
}

void end_waits(void) {
    int led = leads;
    if (!given) return;
    leads = 0; /* (who has it, and stands at a gate, is let through) */
    take_interpreter(given);
    leads = led;
    given = NULL;
}

/* Threads of the program come to their gates, or to what they wait for: how far they are where the loop goes on isn't the machine's matter. Who
 * has had the processor for long runs on and on: it isn't waited for, and after some such times nobody is. */
void come_to_rest(void) {
    enum { NAP = 500000, ENOUGH = 10000000, MOST = 4000, TOO_OFTEN = 10 };
    static int in_vain;
    struct timespec time = {0, NAP};
    uint64_t used = real_ns(CLOCK_PROCESS_CPUTIME_ID);
    take_nap();
    for (int naps = 0; in_vain < TOO_OFTEN; naps++) {
        pthread_mutex_lock(&gate);
        bool runs = napping > 0 || somebody_runs();
        pthread_mutex_unlock(&gate);
        if (!runs) in_vain = 0;
        else if (naps == MOST || real_ns(CLOCK_PROCESS_CPUTIME_ID) - used > ENOUGH) in_vain++;
        else {
            syscall(SYS_nanosleep, &time, NULL);
            continue;
        }
        return;
    }
}

void set_free(const char *why) {
    if (state != FORCING) return;
    pthread_mutex_lock(&gate);
    freed_at = real_ns(CLOCK_MONOTONIC);
    state = FREE;
    page->free = 1;
    pthread_cond_broadcast(&changed);
    pthread_mutex_unlock(&gate);
    if (held_send) let_held_go(held_send);
    if (why) say("%s", why);
}

void stop_here(void) {
    if (stops) raise(SIGTRAP);
}
