/* A callback of work that takes 40 ms: the async handle that a thread sent to meanwhile waits for it. */
#include <stdio.h>
#include <unistd.h>
#include <uv.h>

static uv_work_t job;
static uv_async_t progress;
static uv_timer_t timeout;

static void busy(int ms) {
    uint64_t start = uv_hrtime();
    while (uv_hrtime() - start < ms * 1000000ull) {}
}

static void compute(uv_work_t *request) {
    uv_async_send(&progress);
    usleep(10000);
}

static void on_progress(uv_async_t *handle) {}

static void on_timeout(uv_timer_t *timer) {}

static void computed(uv_work_t *request, int status) {
    busy(40);
    uv_close((uv_handle_t *)&progress, NULL);
}

int main(void) {
    uv_loop_t *loop = uv_default_loop();
    uv_async_init(loop, &progress, on_progress);
    uv_timer_init(loop, &timeout);
    uv_timer_start(&timeout, on_timeout, 30, 0);
    uv_queue_work(loop, &job, compute, computed);
    return uv_run(loop, UV_RUN_DEFAULT);
}
