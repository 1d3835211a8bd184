/* The lock: it is taken around all that is asked of objects and written. */
#define _GNU_SOURCE
#include "recorder.h"

#include <pthread.h>
#include <stdatomic.h>

static __thread int locked;
static __thread int held;
static pthread_mutex_t mutex = PTHREAD_RECURSIVE_MUTEX_INITIALIZER_NP;

/* (who waits in a callback for another thread that is at a line has a line of it: that is the recorder's doing, and nobody else's) */
static void __attribute__((noinline)) wait_for_lock(void) {
    struct wait wait = {.loop = in_callback};
    if (wait.loop) wait.begin = clock_ms();
    really_lock(&mutex);
    uint64_t took = wait.loop && !off && !forces() ? clock_ms() - wait.begin : 0;
    const void *from = called_from;
    called_from = NULL;
    if (took >= 2) write_wait(wait.loop, "recorder", took, "");
    called_from = from;
}

/* (`locked` is counted before the mutex is taken, and until it is given back: a signal's handler that comes in between, and sends, must not wait
 * for what it has interrupted. `held` is counted only while it is taken, so that it is taken once however deep; a handler that comes in between
 * takes it once more) */
void lock(void) {
    locked++;
    atomic_signal_fence(memory_order_seq_cst);
    if (!held && pthread_mutex_trylock(&mutex) != 0) wait_for_lock();
    atomic_signal_fence(memory_order_seq_cst);
    held++;
}

void unlock(void) {
    held--;
    atomic_signal_fence(memory_order_seq_cst);
    if (!held) pthread_mutex_unlock(&mutex);
    atomic_signal_fence(memory_order_seq_cst);
    locked--;
}

pid_t who_writes(void) {
    return owner_of(&mutex);
}

int unlock_all(void) {
    int depth = held;
    for (int at = 0; at < depth; at++) unlock();
    return depth;
}

void lock_again(int depth) {
    while (depth-- > 0) lock();
}

bool is_locked_here(void) {
    return locked > 0;
}

void forget_lock(void) {
    locked = 0;
    held = 0;
    mutex = (pthread_mutex_t)PTHREAD_RECURSIVE_MUTEX_INITIALIZER_NP;
}
