/* Further calls of the C library that wait (waits.c): with a time limit, by the names of C11, for a signal, for what another process has, what
 * `stdio` prints and reads, and those that a program built with _FORTIFY_SOURCE has in place of the plain ones. */
#undef _FORTIFY_SOURCE
#define _GNU_SOURCE
#include "recorder.h"
#include "waits.h"

#include <dirent.h>
#include <errno.h>
#include <fcntl.h>
#include <linux/futex.h>
#include <mqueue.h>
#include <netdb.h>
#include <poll.h>
#include <semaphore.h>
#include <signal.h>
#include <spawn.h>
#include <stdarg.h>
#include <stdio.h>
#include <sys/msg.h>
#include <sys/resource.h>
#include <sys/select.h>
#include <sys/sem.h>
#include <sys/sendfile.h>
#include <sys/socket.h>
#include <sys/syscall.h>
#include <sys/uio.h>
#include <sys/wait.h>
#include <threads.h>
#include <unistd.h>

#ifndef FORCE

/* ---- locks and threads, up to a time; by the names of C11; and by the system's own call */

typedef const struct timespec until_t;
int pthread_mutex_clocklock(pthread_mutex_t *mutex, clockid_t clock, until_t *until);
int pthread_cond_clockwait(pthread_cond_t *condition, pthread_mutex_t *mutex, clockid_t clock, until_t *until);
int pthread_rwlock_clockrdlock(pthread_rwlock_t *lock, clockid_t clock, until_t *until);
int pthread_rwlock_clockwrlock(pthread_rwlock_t *lock, clockid_t clock, until_t *until);
int sem_clockwait(sem_t *semaphore, clockid_t clock, until_t *until);

/* (of a mutex it is told who had it) */
#define LOCKS(NAME, TYPE, PARAMETERS, WORDS)                                           \
    REAL(NAME)                                                                         \
    int NAME PARAMETERS {                                                              \
        struct wait wait;                                                              \
        if (__builtin_expect(!in_callback, 1) || !begin_wait(&wait, __func__, CALLER)) return CALL(NAME) WORDS; \
        note_owner(&wait, owner_of((const pthread_mutex_t *)(const void *)mutex));     \
        int got = CALL(NAME) WORDS;                                                    \
        end_wait(&wait, __func__, CALLER);                                             \
        return got;                                                                    \
    }

LOCKS(pthread_mutex_timedlock, pthread_mutex_t, (pthread_mutex_t *mutex, until_t *until), (mutex, until))
LOCKS(pthread_mutex_clocklock, pthread_mutex_t, (pthread_mutex_t *mutex, clockid_t clock, until_t *until), (mutex, clock, until))
LOCKS(mtx_lock, mtx_t, (mtx_t *mutex), (mutex))
LOCKS(mtx_timedlock, mtx_t, (mtx_t *restrict mutex, until_t *restrict until), (mutex, until))
WAITS(int, cnd_wait, (cnd_t *condition, mtx_t *mutex), (condition, mutex))
WAITS(int, cnd_timedwait, (cnd_t *restrict condition, mtx_t *restrict mutex, until_t *restrict until), (condition, mutex, until))
WAITS(int, thrd_join, (thrd_t thread, int *answer), (thread, answer))
WAITS(int, thrd_sleep, (until_t *time, struct timespec *left), (time, left))
WAITS(int, pthread_cond_clockwait, (pthread_cond_t *condition, pthread_mutex_t *mutex, clockid_t clock, until_t *until),
      (condition, mutex, clock, until))
WAITS(int, pthread_rwlock_timedrdlock, (pthread_rwlock_t *lock, until_t *until), (lock, until))
WAITS(int, pthread_rwlock_timedwrlock, (pthread_rwlock_t *lock, until_t *until), (lock, until))
WAITS(int, pthread_rwlock_clockrdlock, (pthread_rwlock_t *lock, clockid_t clock, until_t *until), (lock, clock, until))
WAITS(int, pthread_rwlock_clockwrlock, (pthread_rwlock_t *lock, clockid_t clock, until_t *until), (lock, clock, until))
WAITS(int, pthread_timedjoin_np, (pthread_t thread, void **answer, until_t *until), (thread, answer, until))
WAITS(int, sem_clockwait, (sem_t *semaphore, clockid_t clock, until_t *until), (semaphore, clock, until))

/* (what C++ has for futures, latches and atomics that wait; any other call is the real one's) */
REAL(syscall)
long syscall(long number, ...) {
    struct wait wait;
    long word[6];
    va_list words;
    va_start(words, number);
    for (int at = 0; at < 6; at++) word[at] = va_arg(words, long);
    va_end(words);
    long what = word[1] & FUTEX_CMD_MASK;
    bool waits = number == SYS_futex && (what == FUTEX_WAIT || what == FUTEX_WAIT_BITSET) && in_callback && begin_wait(&wait, "futex", CALLER);
    long got = CALL(syscall)(number, word[0], word[1], word[2], word[3], word[4], word[5]);
    if (waits) end_wait(&wait, "futex", CALLER);
    return got;
}

/* ---- signals, and messages of other processes */

WAITS(int, pselect, (int count, fd_set *in, fd_set *out, fd_set *other, until_t *timeout, const sigset_t *signals),
      (count, in, out, other, timeout, signals))
WAITS(int, pause, (void), ())
WAITS(int, sigsuspend, (const sigset_t *signals), (signals))
WAITS(int, sigwait, (const sigset_t *signals, int *number), (signals, number))
WAITS(int, sigwaitinfo, (const sigset_t *signals, siginfo_t *info), (signals, info))
WAITS(int, sigtimedwait, (const sigset_t *signals, siginfo_t *info, until_t *timeout), (signals, info, timeout))
WAITS(ssize_t, msgrcv, (int queue, void *message, size_t size, long type, int flags), (queue, message, size, type, flags))
WAITS(int, msgsnd, (int queue, const void *message, size_t size, int flags), (queue, message, size, flags))
WAITS(int, semop, (int set, struct sembuf *ops, size_t count), (set, ops, count))
WAITS(int, semtimedop, (int set, struct sembuf *ops, size_t count, until_t *timeout), (set, ops, count, timeout))
WAITS(ssize_t, mq_receive, (mqd_t queue, char *message, size_t size, unsigned *priority), (queue, message, size, priority))
WAITS(int, mq_send, (mqd_t queue, const char *message, size_t size, unsigned priority), (queue, message, size, priority))

/* ---- files and sockets */

WAITS(int, lockf, (int file, int what, off_t size), (file, what, size))
WAITS(int, lockf64, (int file, int what, off64_t size), (file, what, size))

/* (a lock of a part of a file is waited for; what else it does takes no time) */
#define CONTROLS(NAME)                                                                 \
    REAL(NAME)                                                                         \
    int NAME(int file, int what, ...) {                                                \
        struct wait wait;                                                              \
        va_list words;                                                                 \
        va_start(words, what);                                                         \
        void *word = va_arg(words, void *);                                            \
        va_end(words);                                                                 \
        bool waits = (what == F_SETLKW || what == F_OFD_SETLKW) && in_callback && begin_wait(&wait, "fcntl", CALLER); \
        int got = CALL(NAME)(file, what, word);                                        \
        if (waits) end_wait(&wait, "fcntl", CALLER);                                   \
        return got;                                                                    \
    }

#undef fcntl
#undef fcntl64
CONTROLS(fcntl)
CONTROLS(fcntl64)

WAITS(ssize_t, pread64, (int file, void *bytes, size_t size, off64_t at), (file, bytes, size, at))
WAITS(ssize_t, pwrite64, (int file, const void *bytes, size_t size, off64_t at), (file, bytes, size, at))
WAITS(ssize_t, preadv, (int file, const struct iovec *parts, int count, off_t at), (file, parts, count, at))
WAITS(ssize_t, pwritev, (int file, const struct iovec *parts, int count, off_t at), (file, parts, count, at))
WAITS(ssize_t, sendfile, (int to, int from, off_t *at, size_t size), (to, from, at, size))
WAITS(ssize_t, sendfile64, (int to, int from, off64_t *at, size_t size), (to, from, at, size))
WAITS(ssize_t, copy_file_range, (int from, off64_t *at, int to, off64_t *there, size_t size, unsigned flags), (from, at, to, there, size, flags))
WAITS(ssize_t, splice, (int from, off64_t *at, int to, off64_t *there, size_t size, unsigned flags), (from, at, to, there, size, flags))
WAITS(int, fallocate, (int file, int mode, off_t at, off_t size), (file, mode, at, size))
WAITS(int, msync, (void *bytes, size_t size, int flags), (bytes, size, flags))
WAITS(int, syncfs, (int file), (file))
WAITS_IN_VAIN(sync, (void), ())
WAITS(int, unlink, (const char *path), (path))
WAITS(int, rename, (const char *from, const char *to), (from, to))
WAITS(int, accept4, (int file, struct sockaddr *address, socklen_t *size, int flags), (file, address, size, flags))
WAITS(ssize_t, recvfrom, (int file, void *bytes, size_t size, int flags, struct sockaddr *address, socklen_t *length),
      (file, bytes, size, flags, address, length))
WAITS(ssize_t, sendto, (int file, const void *bytes, size_t size, int flags, const struct sockaddr *address, socklen_t length),
      (file, bytes, size, flags, address, length))
WAITS_AS("read", ssize_t, __read_chk, (int file, void *bytes, size_t size, size_t room), (file, bytes, size, room))
WAITS_AS("pread", ssize_t, __pread_chk, (int file, void *bytes, size_t size, off_t at, size_t room), (file, bytes, size, at, room))
WAITS_AS("recv", ssize_t, __recv_chk, (int file, void *bytes, size_t size, size_t room, int flags), (file, bytes, size, room, flags))
WAITS_AS("poll", int, __poll_chk, (struct pollfd * files, nfds_t count, int timeout, size_t room), (files, count, timeout, room))

/* ---- stdio */

REAL(vfprintf)
REAL(__vfprintf_chk)

#define PRINTS(SAID, PARAMETERS, LAST, BY, WORDS)                                      \
    PARAMETERS {                                                                       \
        struct wait wait;                                                              \
        va_list words;                                                                 \
        bool waits = in_callback && begin_wait(&wait, SAID, CALLER);                   \
        va_start(words, LAST);                                                         \
        int got = CALL(BY) WORDS;                                                      \
        va_end(words);                                                                 \
        if (waits) end_wait(&wait, SAID, CALLER);                                      \
        return got;                                                                    \
    }

int __vfprintf_chk(FILE *file, int flag, const char *format, va_list words);
PRINTS("printf", int printf(const char *format, ...), format, vfprintf, (stdout, format, words))
PRINTS("fprintf", int fprintf(FILE *file, const char *format, ...), format, vfprintf, (file, format, words))
PRINTS("printf", int __printf_chk(int flag, const char *format, ...), format, __vfprintf_chk, (stdout, flag, format, words))
PRINTS("fprintf", int __fprintf_chk(FILE *file, int flag, const char *format, ...), format, __vfprintf_chk, (file, flag, format, words))
WAITS(int, puts, (const char *text), (text))
WAITS(int, fputs, (const char *text, FILE *file), (text, file))
WAITS(int, fclose, (FILE * file), (file))
WAITS_AS("fread", size_t, __fread_chk, (void *bytes, size_t room, size_t size, size_t count, FILE *file), (bytes, room, size, count, file))
WAITS_AS("fgets", char *, __fgets_chk, (char *bytes, size_t room, int size, FILE *file), (bytes, room, size, file))
#undef getline
WAITS(ssize_t, getline, (char **line, size_t *room, FILE *file), (line, room, file))
WAITS(ssize_t, getdelim, (char **line, size_t *room, int sign, FILE *file), (line, room, sign, file))
WAITS_AS("getline", ssize_t, __getdelim, (char **line, size_t *room, int sign, FILE *file), (line, room, sign, file))

/* ---- names and processes */

WAITS(int, getnameinfo,
      (const struct sockaddr *address, socklen_t length, char *host, socklen_t room, char *service, socklen_t more, int flags),
      (address, length, host, room, service, more, flags))
WAITS(FILE *, popen, (const char *command, const char *mode), (command, mode))
WAITS(pid_t, fork, (void), ())
WAITS(int, posix_spawn,
      (pid_t *restrict child, const char *restrict path, const posix_spawn_file_actions_t *actions, const posix_spawnattr_t *restrict attributes,
       char *const *restrict words, char *const *restrict environment),
      (child, path, actions, attributes, words, environment))
WAITS(int, posix_spawnp,
      (pid_t *child, const char *path, const posix_spawn_file_actions_t *actions, const posix_spawnattr_t *attributes, char *const *words,
       char *const *environment),
      (child, path, actions, attributes, words, environment))

REAL(wait3)
pid_t wait3(int *status, int options, struct rusage *usage) {
    struct wait mine;
    bool waits = in_callback && begin_wait(&mine, __func__, CALLER);
    pid_t got = CALL(wait3)(status, options, usage);
    if (waits) end_wait(&mine, __func__, CALLER);
    return reaped(got, CALLER);
}

REAL(wait4)
pid_t wait4(pid_t child, int *status, int options, struct rusage *usage) {
    struct wait mine;
    bool waits = in_callback && begin_wait(&mine, __func__, CALLER);
    pid_t got = CALL(wait4)(child, status, options, usage);
    if (waits) end_wait(&mine, __func__, CALLER);
    return reaped(got, CALLER);
}

REAL(waitid)
int waitid(idtype_t kind, id_t child, siginfo_t *info, int options) {
    struct wait mine;
    bool waits = in_callback && begin_wait(&mine, __func__, CALLER);
    int got = CALL(waitid)(kind, child, info, options);
    if (waits) end_wait(&mine, __func__, CALLER);
    /* (with WNOWAIT it can be waited for still) */
    if (got == 0 && info && !(options & WNOWAIT) && (options & WEXITED)) reaped(info->si_pid, CALLER);
    return got;
}

/* (those that a signal's handler may call are looked up before) */
static void __attribute__((constructor)) look_up_calls(void) {
    (void)CALL(syscall), (void)CALL(fork), (void)CALL(fcntl), (void)CALL(rename), (void)CALL(unlink), (void)CALL(sendto), (void)CALL(recvfrom);
    (void)CALL(pause), (void)CALL(sigsuspend), (void)CALL(wait4), (void)CALL(waitid), (void)CALL(accept4), (void)CALL(pselect);
}

#endif
