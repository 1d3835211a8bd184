#define _GNU_SOURCE
#include "pool.h"

#include <dlfcn.h>
#include <pthread.h>
#include <semaphore.h>
#include <stdatomic.h>
#include <stdlib.h>

// `go` is what a held worker waits for, and by `held` it says that it has come to a place where it is held.
typedef struct {
    sem_t go, held;
} Worker;

static Worker workers[MOST_WORKERS];
static atomic_size_t seated;
static pthread_barrier_t all_seated;
static uv_loop_t seats;
static uv_work_t seat_requests[MOST_WORKERS];

// Of a worker's thread: its place, and the lock of the loop whose request it has just done. A worker locks that one to hand the
// request in. The next one that it locks is the pool's own, to look for another request.
static __thread Worker *self;
static __thread pthread_mutex_t *handing_in;

static void hold(void) {
    sem_post(&self->held);
    while (sem_wait(&self->go) != 0) {
    }
}

// In the place of the C library's: holds a worker that is about to lock the pool.
int pthread_mutex_lock(pthread_mutex_t *mutex) {
    static int (*next)(pthread_mutex_t *);
    if (next == NULL)
        next = (int (*)(pthread_mutex_t *))dlsym(RTLD_NEXT, "pthread_mutex_lock");
    if (handing_in != NULL && mutex != handing_in) {
        handing_in = NULL;
        hold();
    }
    return next(mutex);
}

void do_work(uv_work_t *request) {
    hold();
    handing_in = &request->loop->wq_mutex;
}

static void take_seat(uv_work_t *request) {
    self = &workers[atomic_fetch_add(&seated, 1)];
    pthread_barrier_wait(&all_seated);
    handing_in = &request->loop->wq_mutex;
}

static void ignore(uv_work_t *request, int status) {
    (void)request;
    (void)status;
}

static void await_held(size_t worker) {
    while (sem_wait(&workers[worker].held) != 0) {
    }
}

void seat_workers(size_t count) {
    if (count > MOST_WORKERS || uv_loop_init(&seats) != 0 || pthread_barrier_init(&all_seated, NULL, (unsigned)count) != 0)
        abort();
    for (size_t at = 0; at < count; at++)
        if (sem_init(&workers[at].go, 0, 0) != 0 || sem_init(&workers[at].held, 0, 0) != 0)
            abort();
    for (size_t at = 0; at < count; at++)
        if (uv_queue_work(&seats, &seat_requests[at], take_seat, ignore) != 0)
            abort();
    for (size_t at = 0; at < count; at++)
        await_held(at);
}

void let_take(size_t worker) {
    sem_post(&workers[worker].go);
    await_held(worker);
}

void let_finish(size_t worker) {
    sem_post(&workers[worker].go);
    await_held(worker);
}
