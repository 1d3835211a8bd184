/* What a callback waits for: calls that stand still, of libuv and of the C library. Each is timed while a callback of the loop's thread is under way,
 * the outermost one alone, and has a line where it took long enough: `0 D NOW CLOCK FUNCTION MS @PLACE`.
 *
 * Anywhere else such a call is the real one's at once. */
#define _GNU_SOURCE
#include "recorder.h"
#include "waits.h"

#include <ctype.h>
#include <dirent.h>
#include <dlfcn.h>
#include <errno.h>
#include <fcntl.h>
#include <netdb.h>
#include <poll.h>
#include <semaphore.h>
#include <signal.h>
#include <stdarg.h>
#include <stdio.h>
#include <stdlib.h>
#include <string.h>
#include <sys/file.h>
#include <sys/select.h>
#include <sys/socket.h>
#include <sys/syscall.h>
#include <sys/types.h>
#include <sys/uio.h>
#include <sys/wait.h>
#include <time.h>
#include <unistd.h>

enum { LONG = 2000000 }; /* in ns: what took less isn't told */

__thread struct loop *in_callback __attribute__((tls_model("initial-exec")));
__thread int in_work __attribute__((tls_model("initial-exec")));

void write_wait(struct loop *loop, const char *function, uint64_t ms, const char *owner) {
    const char *has = *owner ? " ^" : "";
    if (in_work) write_line(loop, 'D', "%s %u %%%d%s%s", function, ms, in_work - 1, has, owner);
    else write_line(loop, 'D', "%s %u%s%s", function, ms, has, owner);
}

static uint64_t clock_ns(void) {
    struct timespec time;
    clock_gettime(CLOCK_MONOTONIC, &time);
    return (uint64_t)time.tv_sec * 1000000000 + (uint64_t)time.tv_nsec;
}

/* ---- who has a lock */

pid_t owner_of(const pthread_mutex_t *mutex) {
#ifdef __GLIBC__
    return mutex->__data.__owner;
#else
    return mutex ? 0 : -1;
#endif
}

/* The name that the system has of a thread, with a `_` for what stands in no word. */
static void read_name(char *name, size_t size, pid_t thread) {
    char path[64];
    snprintf(path, sizeof path, "/proc/self/task/%d/comm", thread);
    int file = open(path, O_RDONLY | O_CLOEXEC);
    ssize_t got = file < 0 ? 0 : syscall(SYS_read, file, name, size - 1);
    if (file >= 0) close(file);
    name[got > 0 ? got : 0] = 0;
    name[strcspn(name, "\n")] = 0;
    for (char *at = name; *at; at++)
        if (!isalnum((unsigned char)*at) && !strchr("_-.", *at)) *at = '_';
}

/* The how-manieth thread of the process it is, by their numbers: main's is the first one. */
static int place_of(pid_t thread) {
    char room[2048];
    int before = 0, folder = open("/proc/self/task", O_RDONLY | O_DIRECTORY | O_CLOEXEC);
    for (long got; folder >= 0 && (got = syscall(SYS_getdents64, folder, room, sizeof room)) > 0;)
        for (long at = 0; at < got; at += ((struct dirent64 *)(room + at))->d_reclen) {
            pid_t one = (pid_t)strtol(((struct dirent64 *)(room + at))->d_name, NULL, 10);
            before += one > 0 && one < thread;
        }
    if (folder >= 0) close(folder);
    return before + 1;
}

/* The last one that had a lock for which this thread waited, with its name then: it may be gone behind the wait. */
static __thread struct {
    pid_t thread;
    char name[32];
} last_owner __attribute__((tls_model("initial-exec")));

void note_owner(struct wait *wait, pid_t thread) {
    wait->owner = thread;
    wait->owner_work = thread ? work_of(thread) : -1;
    if (!thread || wait->owner_work >= 0 || filtered || last_owner.thread == thread) return;
    last_owner.thread = thread;
    read_name(last_owner.name, sizeof last_owner.name, thread);
}

/* `%5`: the work of request 5; the thread's name, if it has one of its own; else its place. */
static void name_owner(char *name, size_t size, const struct wait *wait) {
    char main_name[32];
    if (!wait->owner || filtered) return;
    if (wait->owner_work >= 0) {
        snprintf(name, size, "%%%d", wait->owner_work);
        return;
    }
    read_name(name, size, wait->owner);
    if (!*name) snprintf(name, size, "%s", last_owner.name);
    read_name(main_name, sizeof main_name, getpid());
    if (*name && !strcmp(name, main_name)) snprintf(name, size, "#%d", place_of(wait->owner));
}

bool begin_wait(struct wait *wait, const char *function, const void *caller) {
    wait->loop = in_callback;
    if (inside > 0 || off || forces()) return false;
    wait->work = in_work;
    wait->owner = 0;
    in_callback = NULL;
    wait->begin = clock_ns();
    if (keeps() && !wait->work) now_waits(wait->loop, function, caller, wait->begin / 1000000);
    return true;
}

void end_wait(const struct wait *wait, const char *function, const void *caller) {
    int kept = errno;
    uint64_t took = clock_ns() - wait->begin;
    bool is_told = took >= LONG && !off && !is_locked_here();
    char owner[32] = "";
    if (is_told) name_owner(owner, sizeof owner, wait);
    in_callback = wait->loop;
    in_work = wait->work;
    if (keeps() && !wait->work) now_waited(wait->loop);
    if (is_told) {
        const void *before = called_from;
        lock();
        called_from = caller;
        write_wait(wait->loop, function, (took + 500000) / 1000000, owner);
        called_from = before;
        unlock();
    }
    errno = kept;
}

REAL(pthread_mutex_lock)

int really_lock(pthread_mutex_t *mutex) {
    return CALL(pthread_mutex_lock)(mutex);
}

/* (what forces an order stands before most of these itself, and its clock isn't the system's) */
#ifndef FORCE

/* ---- libuv's own */

REAL(uv_mutex_lock)
void uv_mutex_lock(uv_mutex_t *mutex) {
    struct wait wait;
    bool waits = in_callback && begin_wait(&wait, __func__, CALLER);
    if (waits) note_owner(&wait, owner_of(mutex));
    CALL(uv_mutex_lock)(mutex);
    if (waits) end_wait(&wait, __func__, CALLER);
}

WAITS_IN_VAIN(uv_rwlock_rdlock, (uv_rwlock_t *lock), (lock))
WAITS_IN_VAIN(uv_rwlock_wrlock, (uv_rwlock_t *lock), (lock))
WAITS_IN_VAIN(uv_cond_wait, (uv_cond_t *condition, uv_mutex_t *mutex), (condition, mutex))
WAITS(int, uv_cond_timedwait, (uv_cond_t *condition, uv_mutex_t *mutex, uint64_t ns), (condition, mutex, ns))
WAITS_IN_VAIN(uv_sem_wait, (uv_sem_t *semaphore), (semaphore))
WAITS(int, uv_barrier_wait, (uv_barrier_t *barrier), (barrier))
WAITS(int, uv_thread_join, (uv_thread_t *thread), (thread))
void uv_sleep(unsigned ms);
WAITS_IN_VAIN(uv_sleep, (unsigned ms), (ms))

/* ---- locks and threads */

REAL(pthread_mutex_trylock)

/* (one that is free takes no look at the clock) */
int pthread_mutex_lock(pthread_mutex_t *mutex) {
    struct wait wait;
    if (__builtin_expect(!in_callback, 1)) return CALL(pthread_mutex_lock)(mutex);
    int got = CALL(pthread_mutex_trylock)(mutex);
    if (got == 0 || got == EOWNERDEAD || !begin_wait(&wait, __func__, CALLER)) return got == EBUSY ? CALL(pthread_mutex_lock)(mutex) : got;
    note_owner(&wait, owner_of(mutex));
    got = CALL(pthread_mutex_lock)(mutex);
    end_wait(&wait, __func__, CALLER);
    return got;
}

/* (there are two of each in the C library of x86-64, and the first one isn't today's) */
static void *today(const char *name, void **kept) {
    if (!*kept) *kept = dlvsym(RTLD_NEXT, name, "GLIBC_2.3.2");
    return *kept ? *kept : real(name, kept);
}

#undef CALL
#define CALL(name) ((__typeof__(name) *)today(#name, &kept_##name))
WAITS(int, pthread_cond_wait, (pthread_cond_t *condition, pthread_mutex_t *mutex), (condition, mutex))
WAITS(int, pthread_cond_timedwait, (pthread_cond_t *condition, pthread_mutex_t *mutex, const struct timespec *until), (condition, mutex, until))
#undef CALL
#define CALL(name) ((__typeof__(name) *)real(#name, &kept_##name))

WAITS(int, pthread_rwlock_rdlock, (pthread_rwlock_t *lock), (lock))
WAITS(int, pthread_rwlock_wrlock, (pthread_rwlock_t *lock), (lock))
WAITS(int, pthread_barrier_wait, (pthread_barrier_t *barrier), (barrier))
WAITS(int, pthread_join, (pthread_t thread, void **answer), (thread, answer))
WAITS(int, sem_wait, (sem_t *semaphore), (semaphore))
WAITS(int, sem_timedwait, (sem_t *semaphore, const struct timespec *until), (semaphore, until))

/* ---- time */

WAITS(int, nanosleep, (const struct timespec *time, struct timespec *left), (time, left))
WAITS(int, clock_nanosleep, (clockid_t clock, int flags, const struct timespec *time, struct timespec *left), (clock, flags, time, left))
WAITS(int, usleep, (useconds_t time), (time))
WAITS(unsigned, sleep, (unsigned seconds), (seconds))
WAITS(int, poll, (struct pollfd * files, nfds_t count, int timeout), (files, count, timeout))
WAITS(int, ppoll, (struct pollfd * files, nfds_t count, const struct timespec *timeout, const sigset_t *signals), (files, count, timeout, signals))
WAITS(int, select, (int count, fd_set *in, fd_set *out, fd_set *other, struct timeval *timeout), (count, in, out, other, timeout))

/* ---- files and sockets */

WAITS(ssize_t, read, (int file, void *bytes, size_t size), (file, bytes, size))
WAITS(ssize_t, write, (int file, const void *bytes, size_t size), (file, bytes, size))
WAITS(ssize_t, pread, (int file, void *bytes, size_t size, off_t at), (file, bytes, size, at))
WAITS(ssize_t, pwrite, (int file, const void *bytes, size_t size, off_t at), (file, bytes, size, at))
WAITS(ssize_t, readv, (int file, const struct iovec *parts, int count), (file, parts, count))
WAITS(ssize_t, writev, (int file, const struct iovec *parts, int count), (file, parts, count))
WAITS(int, fsync, (int file), (file))
WAITS(int, fdatasync, (int file), (file))
WAITS(int, flock, (int file, int what), (file, what))
WAITS(int, connect, (int file, const struct sockaddr *address, socklen_t size), (file, address, size))
WAITS(int, accept, (int file, struct sockaddr *address, socklen_t *size), (file, address, size))
WAITS(ssize_t, recv, (int file, void *bytes, size_t size, int flags), (file, bytes, size, flags))
WAITS(ssize_t, send, (int file, const void *bytes, size_t size, int flags), (file, bytes, size, flags))
WAITS(ssize_t, recvmsg, (int file, struct msghdr *message, int flags), (file, message, flags))
WAITS(ssize_t, sendmsg, (int file, const struct msghdr *message, int flags), (file, message, flags))
WAITS(size_t, fread, (void *bytes, size_t size, size_t count, FILE *file), (bytes, size, count, file))
WAITS(size_t, fwrite, (const void *bytes, size_t size, size_t count, FILE *file), (bytes, size, count, file))
WAITS(char *, fgets, (char *bytes, int size, FILE *file), (bytes, size, file))
WAITS(int, fflush, (FILE *file), (file))

static mode_t mode_of(int flags, va_list words) {
    return flags & (O_CREAT | __O_TMPFILE) ? (mode_t)va_arg(words, int) : 0;
}

#define OPENS(NAME)                                                                    \
    REAL(NAME)                                                                         \
    int NAME(const char *path, int flags, ...) {                                       \
        struct wait wait;                                                              \
        va_list words;                                                                 \
        va_start(words, flags);                                                        \
        mode_t mode = mode_of(flags, words);                                           \
        va_end(words);                                                                 \
        if (__builtin_expect(!in_callback, 1) || !begin_wait(&wait, __func__, CALLER)) return CALL(NAME)(path, flags, mode); \
        int got = CALL(NAME)(path, flags, mode);                                       \
        end_wait(&wait, #NAME, CALLER);                                                \
        return got;                                                                    \
    }

OPENS(open)
OPENS(open64)

/* ---- names and processes */

WAITS(int, getaddrinfo, (const char *node, const char *service, const struct addrinfo *hints, struct addrinfo **found), (node, service, hints, found))
WAITS(struct hostent *, gethostbyname, (const char *name), (name))
WAITS(int, system, (const char *command), (command))
WAITS(int, pclose, (FILE * file), (file))

/* Who waits for a child that is a process of this thread's loop: its exit callback never comes then. A line says so. */
pid_t reaped(pid_t child, const void *caller) {
    if (child > 0 && running_here() && !off && !is_from_libuv(caller)) {
        int kept = errno;
        note_reaped(running_here(), child, caller);
        errno = kept;
    }
    return child;
}

REAL(waitpid)
pid_t waitpid(pid_t child, int *status, int options) {
    struct wait mine;
    if (__builtin_expect(!in_callback, 1) || !begin_wait(&mine, __func__, CALLER)) return reaped(CALL(waitpid)(child, status, options), CALLER);
    pid_t got = CALL(waitpid)(child, status, options);
    end_wait(&mine, __func__, CALLER);
    return reaped(got, CALLER);
}

REAL(wait)
pid_t wait(int *status) {
    struct wait mine;
    if (__builtin_expect(!in_callback, 1) || !begin_wait(&mine, __func__, CALLER)) return reaped(CALL(wait)(status), CALLER);
    pid_t got = CALL(wait)(status);
    end_wait(&mine, __func__, CALLER);
    return reaped(got, CALLER);
}

#endif
