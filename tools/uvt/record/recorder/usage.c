/* What a thread had of the processor, by the clock: how long it was on it, in the kernel, its page faults, how often it gave it away or was pushed
 * off it, and how long it waited for one though it could run. */
#define _GNU_SOURCE
#include "log.h"

#include <fcntl.h>
#include <sys/resource.h>
#include <sys/syscall.h>
#include <time.h>
#include <unistd.h>

/* The second number of this thread's schedstat, in ns; UNKNOWN where the kernel has none. (By plain calls of the system: `open` and `read` are the
 * recorder's own functions, in waits.c. The file isn't kept open: programs close what they don't know.) */
static uint64_t waited_now(void) {
    char text[96];
    int file = (int)syscall(SYS_openat, AT_FDCWD, "/proc/thread-self/schedstat", O_RDONLY | O_CLOEXEC, 0);
    if (file < 0) return UNKNOWN;
    long length = syscall(SYS_read, file, text, sizeof text - 1);
    syscall(SYS_close, file);
    uint64_t waited = 0;
    long at = 0;
    while (at < length && text[at] != ' ') at++;
    if (at >= length) return UNKNOWN;
    for (at++; at < length && text[at] >= '0' && text[at] <= '9'; at++) waited = waited * 10 + (uint64_t)(text[at] - '0');
    return waited;
}

static void read_usage(struct usage *usage) {
    struct timespec time;
    struct rusage rusage;
    clock_gettime(CLOCK_THREAD_CPUTIME_ID, &time);
    usage->processor = (uint64_t)time.tv_sec * 1000000000 + (uint64_t)time.tv_nsec;
    usage->waited = waited_now();
    if (getrusage(RUSAGE_THREAD, &rusage) != 0) return;
    usage->kernel = (uint64_t)rusage.ru_stime.tv_sec * 1000000000 + (uint64_t)rusage.ru_stime.tv_usec * 1000;
    usage->faults = (uint64_t)rusage.ru_minflt;
    usage->disk = (uint64_t)rusage.ru_majflt;
    usage->gave = (uint64_t)rusage.ru_nvcsw;
    usage->lost = (uint64_t)rusage.ru_nivcsw;
}

/* What this thread had of the processor, as it was read last, and the clock then, in ms. While that is the same nothing is read, since it takes calls
 * of the system: so what is kept is less than a millisecond old. And of the work that it does. */
static __thread struct {
    uint64_t clock;
    struct usage usage;
    uint64_t put_off; /* the clock as the looks at its stack were put off last */
    uint64_t work_clock;
    struct usage work_usage;
    bool ahead; /* the usage was read in front of the lock, for the line that comes */
} here;

struct usage usage_by(uint64_t clock, bool anew) {
    const struct usage none = {.waited = UNKNOWN};
    if (forces() || filtered) return none;
    bool ahead = here.ahead && clock <= here.clock + 1;
    here.ahead = false;
    if (ahead || (here.clock == clock && here.usage.processor && !anew)) return here.usage;
    here.clock = clock;
    read_usage(&here.usage);
    /* (as something ends it is what there was by the clock: what it waited for since then, to read it, is none of that) */
    uint64_t since = anew ? clock_ms() - clock : 0;
    if (since > 1 && here.usage.waited != UNKNOWN) here.usage.waited -= since * 1000000 < here.usage.waited ? since * 1000000 : here.usage.waited;
    return here.usage;
}

/* (else the loop might wait for a worker that is pushed off its processor in these calls of the system) */
void read_ahead(bool ends) {
    if (off || forces() || filtered) return;
    uint64_t clock = clock_ms();
    if (ends ? clock < here.work_clock + SHORT : here.clock == clock && here.usage.processor) return;
    here.clock = clock;
    read_usage(&here.usage);
    here.ahead = true;
}

uint64_t last_waited(void) {
    return here.clock && here.usage.processor ? here.usage.waited : UNKNOWN;
}

uint64_t waited_by(uint64_t clock, bool anew) {
    return usage_by(clock, anew).waited;
}

/* (to read it takes calls of the system, and in them a thread is pushed off its processor: where that took long, it is read anew) */
uint64_t clock_behind(struct usage *usage) {
    enum { TIMES_READ = 3 };
    uint64_t before, clock = clock_ms();
    for (int time = 0; time < TIMES_READ; time++) {
        before = clock;
        bool known = here.clock == before && here.usage.processor;
        *usage = usage_by(before, false);
        if (known || forces() || filtered || (clock = clock_ms()) <= before + 1) break;
    }
    return clock;
}

uint64_t clock_ms(void) {
    struct timespec time;
    if (forces()) return force_clock(0);
    clock_gettime(CLOCK_MONOTONIC, &time);
    return (uint64_t)time.tv_sec * 1000 + (uint64_t)time.tv_nsec / 1000000;
}

/* What this thread had of the processor since then; false where that was too short, or isn't known. */
static bool used_since(uint64_t clock, uint64_t begin, const struct usage *before, struct usage *used) {
    if (!begin || clock < begin + SHORT || forces() || filtered) return false;
    struct usage now = usage_by(clock, true);
    used->processor = now.processor - before->processor;
    used->kernel = now.kernel - before->kernel;
    used->faults = now.faults - before->faults;
    used->disk = now.disk - before->disk;
    used->gave = now.gave - before->gave;
    used->lost = now.lost - before->lost;
    used->waited = now.waited == UNKNOWN || before->waited == UNKNOWN ? UNKNOWN : now.waited - before->waited;
    return true;
}

bool note_time(struct loop *loop, char type, uint64_t clock, struct usage *used, uint64_t *took) {
    struct times *times = &loop->times[loop->begun % TIMES];
    bool ends = type == 'E' && times->begun == loop->begun && !times->end;
    if (type == 'B') {
        *times = (struct times){.begun = loop->begun, .begin = clock, .usage = *used};
        loop->early = 0;
        note_share(loop, clock, times->usage.waited);
        if (here.put_off != clock && !filtered) put_off_stacks();
        here.put_off = clock;
        forget_stacks();
    }
    if (type == 'T') here.work_clock = clock, here.work_usage = *used;
    if (type == 'B') look_at_late(clock);
    *took = clock - (ends ? times->begin : here.work_clock);
    if (ends) {
        bool known = used_since(clock, times->begin, &times->usage, used);
        times->end = clock;
        note_late(loop, "callback", -1, &(struct late){clock, *took, known ? used->waited : UNKNOWN});
        return known;
    }
    return type == 'F' && used_since(clock, here.work_clock, &here.work_usage, used);
}
