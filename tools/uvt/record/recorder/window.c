/* The log's file: it grows by windows, each mapped and shared. So what was written is in the file, however the program ends, and a line costs no
 * system call. It is made with the first line, behind what that one says of the program. */
#define _GNU_SOURCE
#include "log.h"

#include <errno.h>
#include <fcntl.h>
#include <stdio.h>
#include <stdlib.h>
#include <string.h>
#include <sys/mman.h>
#include <sys/resource.h>
#include <unistd.h>

enum { WINDOW = 1 << 20, NOTE = 64 };

static char prefix[3072];
static int file = -1;
static char *window;
static size_t used, windows;
static char *ahead; /* windows that are there already */
static size_t ahead_left;
REAL(uv_version_string)

bool may_grow_to(size_t size) {
    struct rlimit limit;
    /* (a file past its limit ends the program with a signal) */
    return getrlimit(RLIMIT_FSIZE, &limit) != 0 || limit.rlim_cur == RLIM_INFINITY || size <= limit.rlim_cur;
}

static char *map_windows(size_t count) {
    size_t begin = windows * (size_t)WINDOW, size = count * (size_t)WINDOW;
    if (!may_grow_to(begin + size) || posix_fallocate(file, (off_t)begin, (off_t)size) != 0) return MAP_FAILED;
    return mmap(NULL, size, PROT_READ | PROT_WRITE, MAP_SHARED, file, (off_t)begin);
}

/* The next window. Without room for it the last one says so at its end, and nothing is recorded any more. */
static bool next_window(void) {
    char *next = MAP_FAILED;
    if (ahead_left > 0) next = ahead, ahead += WINDOW, ahead_left--;
    else if (!filtered) next = map_windows(1);
    if (next == MAP_FAILED) {
        if (window) strcpy(window + used, filtered ? "- ! filter\n" : "- ! no room\n");
        off = true;
        return false;
    }
    if (window && !filtered) munmap(window, WINDOW);
    window = next;
    used = 0;
    windows++;
    return true;
}

void write_text(const char *text, size_t length) {
    if (keeps()) {
        if (!write_ring(text, length)) off = true;
        return;
    }
    if (used + length > WINDOW - NOTE && !next_window()) return;
    memcpy(window + used, text, length);
    used += length;
}

int workers(void) {
    const char *asked = getenv("UV_THREADPOOL_SIZE");
    int count = asked ? atoi(asked) : 4;
    if (count == 0) return 1;
    return count < 0 || count > 1024 ? 1024 : count; /* as libuv has it */
}

void write_word(const char *text, size_t length) {
    if (!keeps()) write_text(text, length);
    else if (!write_words(text, length)) off = true;
}

static int first_workers;

/* (libuv makes the pool with the first request: until then a program may change the environment) */
void write_workers(void) {
    static bool said;
    if (!said && workers() != first_workers) write_line(NULL, 'N', "%d", workers());
    said = true;
}

/* What can't be seen of a libuv within the program: until the log is made it waits here. */
static struct unseen {
    const char *function, *why;
} unseen[16];
static int unseen_count;

/* The first line: which libuv, which process, how many workers, which program. */
static void write_head(void) {
    char text[LINE];
    first_workers = workers();
    int size = snprintf(text, sizeof text, "uvt-log 2 %s %d %d %.2048s\n", CALL(uv_version_string)(), (int)getpid(),
                        first_workers, name_of_program());
    write_word(text, (size_t)size);
    for (int at = 0; at < unseen_count; at++) {
        size = snprintf(text, sizeof text, "- U %s %s\n", unseen[at].function, unseen[at].why);
        write_word(text, (size_t)size);
    }
}

/* The file is made with the first line of the first loop. (A program that replaced itself by exec has the same process: its file stays.) */
static bool open_file(void) {
    char name[4096];
    if (keeps()) return open_ring(prefix);
    snprintf(name, sizeof name, "%s.%d.log", prefix, (int)getpid());
    for (int more = 2; (file = open(name, O_RDWR | O_CREAT | O_EXCL | O_CLOEXEC, 0600)) < 0 && errno == EEXIST; more++)
        snprintf(name, sizeof name, "%s.%d-%d.log", prefix, (int)getpid(), more);
    return file >= 0 && next_window();
}

bool is_open;

bool open_log(void) {
    char name[4096];
    if (is_open) return true;
    is_open = open_file();
    if (!is_open) {
        off = true;
        return false;
    }
    write_head();
    if (getcwd(name, sizeof name)) write_line(NULL, 'J', "home %s", name);
    if (keeps() && first_base()) write_line(NULL, 'Z', "%u", first_base());
    return true;
}

/* So many windows are made ahead of a filter of system calls. */
enum { AHEAD = 16 };

/* A filter may end the program for a call of the system that it hasn't thought of. So from the program's first word of one on the recorder asks the
 * system for nothing more, and what it needs is there by then: the log, with room for some millions of bytes. */
void before_filter(void) {
    if (off || filtered || !is_libuv_there()) {
        filtered = true;
        return;
    }
    lock();
    stop_stacks();
    name_of_program();
    if (open_log() && !keeps()) {
        char *mapped = MAP_FAILED;
        for (size_t count = AHEAD; count > 0 && mapped == MAP_FAILED; count /= 2) mapped = map_windows(ahead_left = count);
        if (mapped == MAP_FAILED) ahead_left = 0;
        ahead = mapped;
    } else if (is_open) {
        ring_ahead();
    }
    filtered = true;
    unlock();
}

void note_unseen(const char *function, const char *why) {
    if (is_open && !function) {
        write_line(NULL, 'U', "- %s", why);
        off = true;
    }
    if (is_open || unseen_count == sizeof unseen / sizeof *unseen) return;
    unseen[unseen_count++] = (struct unseen){function ? function : "-", why};
    if (!function && !attaches && open_log()) off = true;
}

const char *why_unseen(void) {
    for (int at = 0; at < unseen_count; at++)
        if (strcmp(unseen[at].function, "-") == 0) return unseen[at].why;
    return NULL;
}

bool name_log(const char *named) {
    if (strlen(named) >= sizeof prefix) return false;
    snprintf(prefix, sizeof prefix, "%s", named);
    is_open = false;
    return true;
}

void cut_log(void) {
    if (!window || filtered) return;
    off = true;
    if (ftruncate(file, (off_t)((windows - 1) * (size_t)WINDOW + used)) != 0) return;
}
