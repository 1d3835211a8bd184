/* A job is through after 20 ms, and somebody sends at 30 ms; a callback holds the loop from 10 ms for 200 ms. */
#include "truth.h"
static uv_timer_t blocker;
static uv_work_t job;
static uv_async_t inbox;
static void on_blocker(uv_timer_t *timer) { works("blocker", 200); }
static void work_job(uv_work_t *request) { works("job", 20); }
static void done(uv_work_t *request, int status) { says("job", "done"); }
static void on_inbox(uv_async_t *async) { uv_close((uv_handle_t *)async, NULL); }
static void sender(void *none) {
    usleep(30000);
    uv_async_send(&inbox);
}
int main(void) {
    uv_loop_t *loop = uv_default_loop();
    uv_thread_t thread;
    uv_timer_init(loop, &blocker);
    uv_async_init(loop, &inbox, on_inbox);
    uv_timer_start(&blocker, on_blocker, 10, 0);
    uv_queue_work(loop, &job, work_job, done);
    uv_thread_create(&thread, sender, NULL);
    uv_run(loop, UV_RUN_DEFAULT);
    return uv_thread_join(&thread);
}
