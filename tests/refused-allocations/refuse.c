// Loaded before the C library (LD_PRELOAD): refuses the allocation whose number stands in REFUSE, counting
// from 1. While there is a file of the name that stands in MARK, it grants as many as GRANTED says, and refuses each
// one behind them. A command is under way from the return of the read that brought bytes from standard input, while the mark is
// there, to the next write to standard output: its answer. At the end it writes to the file that ASKED names six numbers:
// how many allocations were asked for, how many of these while the mark was there, and how many of these while a command was
// under way; how many reads of standard input, and how many writes to standard output; and how many bytes were asked for at once, at
// the most. What gives memory back is no allocation, and isn't counted.
//
// The read of standard input whose number stands in FAIL_READ fails, and the write to standard output whose number stands in
// FAIL_WRITE. Where SHORT is set, a read gives a line at the most, and a write takes seven bytes.
#define _GNU_SOURCE
#include <dlfcn.h>
#include <errno.h>
#include <fcntl.h>
#include <stdatomic.h>
#include <stdio.h>
#include <stdlib.h>
#include <sys/syscall.h>
#include <unistd.h>

static _Atomic long asked, marked, under_way, largest;
static long reads, writes;
static int is_under_way;

static long number_of(const char *name) {
    const char *number = getenv(name);
    return number == NULL ? 0 : atol(number);
}

static int is_marked(void) {
    const char *mark = getenv("MARK");
    return mark != NULL && access(mark, F_OK) == 0;
}

static int is_refused(size_t size) {
    long number = ++asked, most = largest;
    while ((long)size > most && !atomic_compare_exchange_weak(&largest, &most, (long)size)) {
    }
    if (!is_marked()) {
        return number_of("REFUSE") == number;
    }
    number = ++marked;
    under_way += is_under_way;
    return number > number_of("GRANTED");
}

void *malloc(size_t size) {
    static void *(*next)(size_t);
    if (next == NULL) {
        next = (void *(*)(size_t))dlsym(RTLD_NEXT, "malloc");
    }
    return is_refused(size) ? NULL : next(size);
}

void *realloc(void *old, size_t size) {
    static void *(*next)(void *, size_t);
    if (next == NULL) {
        next = (void *(*)(void *, size_t))dlsym(RTLD_NEXT, "realloc");
    }
    return is_refused(size) ? NULL : next(old, size);
}

// Reads up to a line feed.
static ssize_t read_line(ssize_t (*next)(int, void *, size_t), char *bytes, size_t size) {
    size_t got = 0;
    while (got < size && (got == 0 || bytes[got - 1] != '\n')) {
        ssize_t one = next(STDIN_FILENO, bytes + got, 1);
        if (one <= 0) {
            return got == 0 ? one : (ssize_t)got;
        }
        got += 1;
    }
    return (ssize_t)got;
}

ssize_t read(int file, void *bytes, size_t size) {
    static ssize_t (*next)(int, void *, size_t);
    if (next == NULL) {
        next = (ssize_t (*)(int, void *, size_t))dlsym(RTLD_NEXT, "read");
    }
    if (file != STDIN_FILENO) {
        return next(file, bytes, size);
    }
    reads += 1;
    if (number_of("FAIL_READ") == reads) {
        errno = EIO;
        return -1;
    }
    ssize_t got = getenv("SHORT") == NULL ? next(file, bytes, size) : read_line(next, bytes, size);
    if (got > 0) {
        is_under_way = is_marked();
    }
    return got;
}

ssize_t write(int file, const void *bytes, size_t size) {
    static ssize_t (*next)(int, const void *, size_t);
    if (next == NULL) {
        next = (ssize_t (*)(int, const void *, size_t))dlsym(RTLD_NEXT, "write");
    }
    if (file != STDOUT_FILENO) {
        return next(file, bytes, size);
    }
    is_under_way = 0;
    writes += 1;
    if (number_of("FAIL_WRITE") == writes) {
        errno = EIO;
        return -1;
    }
    return next(file, bytes, getenv("SHORT") != NULL && size > 7 ? 7 : size);
}

static void leave(int status) {
    for (;;) {
        syscall(SYS_exit_group, status);
    }
}

__attribute__((destructor)) static void report(void) {
    const char *name = getenv("ASKED");
    if (name != NULL) {
        char text[160];
        int length = snprintf(text, sizeof text, "%ld %ld %ld %ld %ld %ld\n", asked, marked, under_way, reads, writes, largest);
        int file = open(name, O_WRONLY | O_CREAT | O_TRUNC, 0600);
        if (file < 0 || write(file, text, (size_t)length) != length) {
            leave(99);
        }
        close(file);
    }
}

// A program that may start threads ends by this call, and no destructor runs.
void _exit(int status) {
    report();
    leave(status);
    __builtin_unreachable();
}
