/* The clock of a forced order, who looks at it, who sleeps, and who waits until a time.
 *
 * It stands, or is far ahead of the real one. So nobody sleeps; and a wait until a time takes what is left until then, and where it runs out, that
 * time has gone by for the thread. */
#define _GNU_SOURCE
#include "force.h"

#include <dlfcn.h>
#include <errno.h>
#include <semaphore.h>
#include <sys/syscall.h>
#include <sys/time.h>
#include <unistd.h>

static uint64_t began_real;
static __thread unsigned reads;
static __thread uint64_t crept, told;
volatile int napping;

void begin_clock(void) {
    began_real = real_ns(CLOCK_REALTIME) / 1000000 * 1000000;
}

void new_reads(void) {
    reads = 0;
}

void force_slept(uint64_t ns) {
    crept += ns;
}

int clock_gettime(clockid_t id, struct timespec *time) {
    bool steady = id == CLOCK_MONOTONIC || id == CLOCK_MONOTONIC_COARSE || id == CLOCK_MONOTONIC_RAW || id == CLOCK_BOOTTIME;
    bool civil = id == CLOCK_REALTIME || id == CLOCK_REALTIME_COARSE;
    if (state == NOT_FORCING || (!steady && !civil)) {
        static void *kept;
        return ((int (*)(clockid_t, struct timespec *))real("clock_gettime", &kept))(id, time);
    }
    uint64_t now;
    /* (libuv's own look, and not that of whoever is asked for memory there, as a sanitizer) */
    bool is_libuv = leads == 0 && is_text_of_libuv(__builtin_return_address(0));
    if (state == FORCING && steady && is_libuv && depth == 0 && forced && forced->running > 0 && is_leader()) {
        look_at_clock();
        now = virtual_ns();
    } else if (state == FORCING && inside == 0 && !is_locked_here()) {
        /* the program's own: one that waits in a loop until time has gone by comes to its end */
        now = virtual_ns();
        if (++reads == 1) crept = 0;
        if (reads > 50) crept += 20000;
        now += crept;
        if (now < told) now = told;
        told = now;
    } else {
        now = virtual_ns();
    }
    if (civil) now = now - began + began_real;
    time->tv_sec = (time_t)(now / 1000000000);
    time->tv_nsec = (long)(now % 1000000000);
    return 0;
}

uint64_t force_clock(uint64_t real_ms) {
    return state == NOT_FORCING ? real_ms : virtual_ns() / 1000000;
}

enum { CIVIL = 1000000000 }; /* in seconds: no machine is up for so long */

static uint64_t in_ns(const struct timespec *time) {
    return (uint64_t)time->tv_sec * 1000000000 + (uint64_t)time->tv_nsec;
}

static uint64_t own_now(clockid_t id) {
    struct timespec now;
    clock_gettime(id, &now);
    return in_ns(&now);
}

static struct timespec real_until(clockid_t id, const struct timespec *until) {
    uint64_t now = own_now(id), wanted = in_ns(until), real = real_ns(id) + (wanted > now ? wanted - now : 0);
    return (struct timespec){(time_t)(real / 1000000000), (long)(real % 1000000000)};
}

/* (a condition says nowhere which clock it goes by) */
static clockid_t clock_of(const struct timespec *until) {
    return until->tv_sec > CIVIL ? CLOCK_REALTIME : CLOCK_MONOTONIC;
}

static bool is_own(const struct timespec *until) {
    return until && state != NOT_FORCING && until->tv_sec >= 0 && until->tv_nsec >= 0 && until->tv_nsec < 1000000000;
}

/* ---- who sleeps: nobody */

static bool sleeps(uint64_t ns) {
    if (state != FORCING) return false;
    bool is = is_leader();
    crept += ns;
    leads += is;
    __atomic_add_fetch(&napping, 1, __ATOMIC_SEQ_CST);
    take_nap();
    __atomic_sub_fetch(&napping, 1, __ATOMIC_SEQ_CST);
    leads -= is;
    return true;
}

int nanosleep(const struct timespec *asked, struct timespec *left) {
    if (sleeps(in_ns(asked))) return 0;
    return (int)syscall(SYS_nanosleep, asked, left);
}

int clock_nanosleep(clockid_t id, int flags, const struct timespec *asked, struct timespec *left) {
    struct timespec until = *asked;
    if ((flags & TIMER_ABSTIME) && is_own(asked)) {
        uint64_t now = own_now(id), wanted = in_ns(asked);
        if (sleeps(wanted > now ? wanted - now : 0)) return 0;
        until = real_until(id, asked);
    } else if (sleeps(in_ns(asked))) {
        return 0;
    }
    return syscall(SYS_clock_nanosleep, id, flags, &until, left) ? errno : 0;
}

int usleep(useconds_t asked) {
    if (sleeps((uint64_t)asked * 1000)) return 0;
    struct timespec time = {asked / 1000000, (long)(asked % 1000000) * 1000};
    return (int)syscall(SYS_nanosleep, &time, NULL);
}

unsigned sleep(unsigned asked) {
    if (sleeps((uint64_t)asked * 1000000000)) return 0;
    struct timespec time = {asked, 0};
    return syscall(SYS_nanosleep, &time, NULL) ? 1 : 0;
}

/* ---- who waits until a time */

/* (the loop's thread waits again and again for what a thread at a gate has, as Python's does for its lock) */
volatile int leader_late;

static int through(int answer, bool late, clockid_t id, const struct timespec *until) {
    if (late && is_leader()) leader_late++;
    uint64_t now = late && state == FORCING ? own_now(id) : 0;
    if (now && now < in_ns(until)) force_slept(in_ns(until) - now);
    return answer;
}

static void *condition_wait(void) {
    static void *kept;
    /* (without its version an older one may be found) */
    if (!kept) kept = dlvsym(RTLD_NEXT, "pthread_cond_timedwait", "GLIBC_2.3.2");
    return kept ? kept : real("pthread_cond_timedwait", &kept);
}

int pthread_cond_timedwait(pthread_cond_t *condition, pthread_mutex_t *mutex, const struct timespec *until) {
    int (*wait)(pthread_cond_t *, pthread_mutex_t *, const struct timespec *) = (__typeof__(wait))condition_wait();
    if (!is_own(until) || mutex == &gate) return wait(condition, mutex, until);
    clockid_t id = clock_of(until);
    struct timespec moved_to = real_until(id, until);
    int answer = wait(condition, mutex, &moved_to);
    return through(answer, answer == ETIMEDOUT, id, until);
}

int pthread_cond_clockwait(pthread_cond_t *condition, pthread_mutex_t *mutex, clockid_t id, const struct timespec *until) {
    static void *kept;
    int (*wait)(pthread_cond_t *, pthread_mutex_t *, clockid_t, const struct timespec *) = (__typeof__(wait))real("pthread_cond_clockwait", &kept);
    if (!is_own(until)) return wait(condition, mutex, id, until);
    struct timespec moved_to = real_until(id, until);
    int answer = wait(condition, mutex, id, &moved_to);
    return through(answer, answer == ETIMEDOUT, id, until);
}

int pthread_mutex_timedlock(pthread_mutex_t *mutex, const struct timespec *until) {
    static void *kept;
    int (*wait)(pthread_mutex_t *, const struct timespec *) = (__typeof__(wait))real("pthread_mutex_timedlock", &kept);
    if (!is_own(until)) return wait(mutex, until);
    struct timespec moved_to = real_until(CLOCK_REALTIME, until);
    int answer = wait(mutex, &moved_to);
    return through(answer, answer == ETIMEDOUT, CLOCK_REALTIME, until);
}

int sem_timedwait(sem_t *semaphore, const struct timespec *until) {
    static void *kept;
    int (*wait)(sem_t *, const struct timespec *) = (__typeof__(wait))real("sem_timedwait", &kept);
    if (!is_own(until)) return wait(semaphore, until);
    struct timespec moved_to = real_until(CLOCK_REALTIME, until);
    int answer = wait(semaphore, &moved_to), why = errno;
    through(answer, answer < 0 && why == ETIMEDOUT, CLOCK_REALTIME, until);
    errno = why;
    return answer;
}

int sem_clockwait(sem_t *semaphore, clockid_t id, const struct timespec *until) {
    static void *kept;
    int (*wait)(sem_t *, clockid_t, const struct timespec *) = (__typeof__(wait))real("sem_clockwait", &kept);
    if (!is_own(until)) return wait(semaphore, id, until);
    struct timespec moved_to = real_until(id, until);
    int answer = wait(semaphore, id, &moved_to), why = errno;
    through(answer, answer < 0 && why == ETIMEDOUT, id, until);
    errno = why;
    return answer;
}

/* ---- other looks at the clock, by which a time to wait until is made */

int gettimeofday(struct timeval *restrict time, void *restrict zone) {
    static void *kept;
    if (state == NOT_FORCING) return ((int (*)(struct timeval *restrict, void *restrict))real("gettimeofday", &kept))(time, zone);
    uint64_t now = own_now(CLOCK_REALTIME);
    *time = (struct timeval){(time_t)(now / 1000000000), (suseconds_t)(now / 1000 % 1000000)};
    return 0;
}

time_t time(time_t *kept_at) {
    static void *kept;
    if (state == NOT_FORCING) return ((time_t (*)(time_t *))real("time", &kept))(kept_at);
    time_t now = (time_t)(own_now(CLOCK_REALTIME) / 1000000000);
    if (kept_at) *kept_at = now;
    return now;
}
