/* The workers of the pool, each at its gate: in front of a request, of its work and of its end. */
#define _GNU_SOURCE
#include "force.h"

#include <stdlib.h>

struct worker pool[1024];
int pool_count;
__thread struct worker *me;
static uv_mutex_t *pool_mutex;

struct start {
    uv_thread_cb entry;
    void *word;
};

static void begin_worker(void *word) {
    struct start start = *(struct start *)word;
    free(word);
    pthread_mutex_lock(&gate);
    if (pool_count < 1024) me = &pool[pool_count++], me->thread = own_id();
    pthread_mutex_unlock(&gate);
    start.entry(start.word);
}

REAL(uv_thread_create_ex)
REAL(uv_mutex_lock)
REAL(uv_cond_wait)

static void *started(uv_thread_cb *entry, void *word) {
    struct start *start = malloc(sizeof *start);
    if (!start) return word;
    *start = (struct start){*entry, word};
    *entry = begin_worker;
    return start;
}

int uv_thread_create_ex(uv_thread_t *thread, const uv_thread_options_t *options, uv_thread_cb entry, void *word) {
    if (state == FORCING && is_from_libuv(__builtin_return_address(0))) word = started(&entry, word);
    return CALL(uv_thread_create_ex)(thread, options, entry, word);
}

int uv_thread_create(uv_thread_t *thread, uv_thread_cb entry, void *word) {
    /* (libuv's own uv_thread_create calls uv_thread_create_ex, which sees the program's thread come from libuv) */
    uv_thread_options_t none = {.flags = UV_THREAD_NO_FLAGS};
    if (state == FORCING && is_from_libuv(__builtin_return_address(0))) word = started(&entry, word);
    return CALL(uv_thread_create_ex)(thread, &none, entry, word);
}

/* (with the gate's mutex) what a thread has that is let through a gate before its step */
static void let_through(const char *what) {
    depart("%s before its step: the loop's thread waits in the program's own code, and may wait for it", what);
}

static void at_gate(struct worker *worker, enum place place) {
    worker->place = place;
    progress++;
    pthread_cond_broadcast(&changed);
}

/* (with the gate's mutex) Where work begins as it is taken, and has a lock, it waits before it takes another one: until its finish, or until the
 * loop's thread waits in the program's own code. So a callback may come between the two, which takes them the other way round. */
static void at_lock(struct worker *worker) {
    at_gate(worker, AT_LOCK);
    WAIT_FOR_LEADER(worker->may_finish);
    worker->place = RUNNING;
}

/* (with the gate's mutex) the pool's own lock: it takes a request; the loop's: it hands one in; and those of its work */
static void come_to_lock(struct worker *worker, const uv_mutex_t *mutex) {
    if (mutex == pool_mutex) {
        worker->may_run = worker->may_finish = false;
        worker->number = -1;
        worker->locks = 0;
        at_gate(worker, AT_TAKE);
        if (!WAIT_FOR_LEADER(worker->may_take)) let_through("a worker takes a request");
        worker->may_take = false;
        worker->place = TAKING;
    } else if (worker->place == RUNNING && forced && mutex == &forced->uv->wq_mutex) {
        at_gate(worker, AT_FINISH);
        if (!WAIT_FOR_LEADER(worker->may_finish)) let_through("a worker hands in a request");
        worker->place = FINISHING;
    } else if (worker->place == RUNNING && early && worker->locks > 0 && !worker->may_finish) {
        at_lock(worker);
    }
}

void uv_mutex_lock(uv_mutex_t *mutex) {
    struct worker *worker = me;
    if (worker && state == FORCING) {
        if (!pool_mutex) pool_mutex = mutex;
        pthread_mutex_lock(&gate);
        come_to_lock(worker, mutex);
        pthread_mutex_unlock(&gate);
    }
    CALL(uv_mutex_lock)(mutex);
    if (worker && worker->place == RUNNING) worker->locks++;
}

/* (pool.c stands before uv_mutex_unlock, and calls this behind it) */
void force_unlocked(uv_mutex_t *mutex) {
    struct worker *worker = me;
    if (worker && worker->place == RUNNING) worker->locks--;
    if (!worker || worker->place != TAKING || mutex != pool_mutex) return;
    pthread_mutex_lock(&gate);
    at_gate(worker, TAKEN);
    if (!early && !WAIT_FOR_LEADER(worker->may_run)) let_through("a worker begins its work");
    worker->place = RUNNING;
    pthread_mutex_unlock(&gate);
}

void uv_cond_wait(uv_cond_t *condition, uv_mutex_t *mutex) {
    struct worker *worker = me;
    if (worker && mutex == pool_mutex && state == FORCING) {
        pthread_mutex_lock(&gate);
        at_gate(worker, ASLEEP);
        pthread_mutex_unlock(&gate);
    }
    CALL(uv_cond_wait)(condition, mutex);
    if (worker && mutex == pool_mutex) worker->place = TAKING;
}

struct worker *worker_at(enum place place) {
    for (int at = 0; at < pool_count; at++)
        if (pool[at].place == place) return &pool[at];
    return NULL;
}

struct worker *worker_of(long number) {
    for (int at = 0; at < pool_count; at++)
        if (pool[at].number == number && pool[at].place >= TAKEN && pool[at].place <= AT_FINISH) return &pool[at];
    return NULL;
}
