/* As lost.c, with a timer that shows every 100 ms how far it is, and is closed behind the second message: where the second wakeup is lost, the timer
 * goes on for ever, and nothing else does. */
#include <stdio.h>
#include <uv.h>
static uv_async_t wake;
static uv_timer_t shows;
static uv_work_t work;
static int processed, busy;
static void process(uv_work_t *r) { uv_sleep(1); }
static void done(uv_work_t *r, int s) {
    busy = 0;
    if (++processed < 2) return;
    uv_close((uv_handle_t *)&wake, NULL);
    uv_close((uv_handle_t *)&shows, NULL);
}
static void on_wake(uv_async_t *a) {
    if (busy) return;                        /* (done looks at nothing: a lost wakeup) */
    busy = 1;
    uv_queue_work(a->loop, &work, process, done);
}
static void on_show(uv_timer_t *t) {
    fprintf(stderr, "\r%d of 2", processed);
}
static void producer(void *none) {
    for (int i = 0; i < 2; i++) { uv_sleep(100); uv_async_send(&wake); }
}
int main(void) {
    uv_thread_t t;
    uv_loop_t *loop = uv_default_loop();
    uv_async_init(loop, &wake, on_wake);
    uv_timer_init(loop, &shows);
    uv_timer_start(&shows, on_show, 100, 100);
    uv_thread_create(&t, producer, NULL);
    uv_run(loop, UV_RUN_DEFAULT);
    uv_thread_join(&t);
    return 0;
}
