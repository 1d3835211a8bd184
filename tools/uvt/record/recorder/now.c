/* Where a callback is at that doesn't end: of each loop the last look at its stack, and the call in which it waits. It stands in memory that is
 * shared (a file without a name, which the process has open), so `./uvt dump` reads it, and the program does nothing for that. With a ring alone. */
#define _GNU_SOURCE
#include "recorder.h"

#include <stdatomic.h>
#include <string.h>
#include <sys/mman.h>
#include <unistd.h>

/* (tools/uvt/record/now.py reads it: each number has eight bytes, and the order is this one) */
enum { LOOPS = 16, DEEPEST = 24, NAME = 32 };

static struct now {
    uint64_t changes; /* odd while it is written */
    uint64_t loop;    /* one more than its number */
    uint64_t waits, place; /* since when, by the clock in ms, 0 where it doesn't wait; and behind which call of the program */
    char function[NAME];
    uint64_t looked, depth, at[DEEPEST];
} *now;

static int now_file = -1;

void open_now(void) {
    if (now || filtered) return;
    now_file = memfd_create("uvt-now", MFD_CLOEXEC);
    if (now_file < 0 || ftruncate(now_file, sizeof *now * LOOPS) != 0) return;
    void *mapped = mmap(NULL, sizeof *now * LOOPS, PROT_READ | PROT_WRITE, MAP_SHARED, now_file, 0);
    if (mapped != MAP_FAILED) now = mapped;
}

void close_now(void) {
    if (now) munmap(now, sizeof *now * LOOPS);
    if (now_file >= 0) close(now_file);
    now = NULL;
    now_file = -1;
}

static struct now *begin_change(const struct loop *loop) {
    if (!now || off || loop->number < 0) return NULL;
    struct now *mine = &now[loop->number % LOOPS];
    mine->changes |= 1;
    atomic_signal_fence(memory_order_seq_cst);
    mine->loop = (uint64_t)loop->number + 1;
    return mine;
}

static void end_change(struct now *mine) {
    atomic_signal_fence(memory_order_seq_cst);
    mine->changes++;
}

void now_waits(const struct loop *loop, const char *function, const void *caller, uint64_t clock) {
    struct now *mine = begin_change(loop);
    if (!mine) return;
    strncpy(mine->function, function, NAME - 1);
    mine->place = (uint64_t)(uintptr_t)caller;
    mine->waits = clock;
    end_change(mine);
}

void now_waited(const struct loop *loop) {
    struct now *mine = begin_change(loop);
    if (!mine) return;
    mine->waits = 0;
    end_change(mine);
}

/* (by a signal's handler) */
void now_looked(const struct loop *loop, const uintptr_t *at, int depth, uint64_t clock) {
    struct now *mine = begin_change(loop);
    if (!mine) return;
    mine->depth = 0;
    for (; (int)mine->depth < depth && mine->depth < DEEPEST; mine->depth++) mine->at[mine->depth] = at[mine->depth];
    mine->looked = clock;
    end_change(mine);
}
