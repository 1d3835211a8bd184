/* Garbage: from when to when V8 collects it, by the marks that V8 calls in front of each collection and behind it. They are kept until the looks are
 * written: V8 may collect wherever the recorder asks something of it, with the log held. */
#define _GNU_SOURCE
#include "javascript.h"

#include <stdlib.h>
#include <time.h>

enum { MOST = 4096, ALL = -1 };

#define MARK(WHICH) "_ZN2v87Isolate21AddGC" WHICH "CallbackEPFvPS0_NS_6GCTypeENS_15GCCallbackFlagsEES2_"
V8(before_collection, MARK("Prologue"), void, void *, void (*)(void *, int, int), int)
V8(after_collection, MARK("Epilogue"), void, void *, void (*)(void *, int, int), int)

struct collections {
    uint64_t begun; /* in microseconds of the system's clock; 0: none is under way */
    int count;
    struct { uint64_t begun, took; } kept[MOST];
};

static __thread struct collections *here;

static uint64_t microseconds(void) {
    struct timespec time;
    clock_gettime(CLOCK_MONOTONIC, &time);
    return (uint64_t)time.tv_sec * 1000000 + (uint64_t)time.tv_nsec / 1000;
}

static void on_begin(void *isolate, int type, int flags) {
    (void)isolate, (void)type, (void)flags;
    if (here && !here->begun) here->begun = microseconds();
}

/* (where there is no room any more the last one stands for those behind it, with the time that was collected) */
static void on_end(void *isolate, int type, int flags) {
    (void)isolate, (void)type, (void)flags;
    if (!here || !here->begun) return;
    uint64_t took = microseconds() - here->begun;
    if (here->count == MOST) here->kept[MOST - 1].took += took;
    else here->kept[here->count].begun = here->begun, here->kept[here->count++].took = took;
    here->begun = 0;
}

void look_up_collections(void) {
    (void)before_collection(), (void)after_collection();
}

void begin_collections(void *isolate) {
    if (here || !before_collection() || !after_collection()) return;
    here = calloc(1, sizeof *here);
    if (!here) return;
    before_collection()(isolate, on_begin, ALL);
    after_collection()(isolate, on_end, ALL);
}

void write_collections(struct loop *loop) {
    uint64_t from = (uint64_t)loop->base * 1000;
    for (int at = 0; here && at < here->count; at++) {
        uint64_t begun = here->kept[at].begun > from ? here->kept[at].begun - from : 0;
        if (here->kept[at].took) write_line(loop, 'J', "gc %u %u", begun, here->kept[at].took);
    }
    if (here) here->count = 0;
}
