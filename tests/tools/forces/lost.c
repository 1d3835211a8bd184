/* A lost wakeup: the worker of a queue goes idle when it sees the queue empty, and a producer's send while it is `busy` is dropped by a flag.
 * Where the second message comes while the first one's work is under way and before its after callback has looked, nobody processes it: the
 * program never ends. */
#include <stdio.h>
#include <uv.h>
static uv_async_t wake;
static uv_work_t work;
static int queued, processed, busy;
static uv_mutex_t lock;
static void process(uv_work_t *r) { uv_sleep(1); }
static void start(uv_loop_t *loop);
static void done(uv_work_t *r, int s) {
    processed++;
    busy = 0;
    if (processed == 2) uv_close((uv_handle_t *)&wake, NULL);
}
static void start(uv_loop_t *loop) { busy = 1; uv_queue_work(loop, &work, process, done); }
static void on_wake(uv_async_t *a) {
    if (busy) return;                        /* (done looks at nothing: a lost wakeup) */
    start(a->loop);
}
static void producer(void *none) {
    for (int i = 0; i < 2; i++) { uv_sleep(100); uv_mutex_lock(&lock); queued++; uv_mutex_unlock(&lock); uv_async_send(&wake); }
}
int main(void) {
    uv_thread_t t;
    uv_loop_t *loop = uv_default_loop();
    uv_mutex_init(&lock);
    uv_async_init(loop, &wake, on_wake);
    uv_thread_create(&t, producer, NULL);
    uv_run(loop, UV_RUN_DEFAULT);
    uv_thread_join(&t);
    printf("processed %d\n", processed);
    return 0;
}
