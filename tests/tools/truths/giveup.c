/* Eight jobs for four workers; after 20 ms the last one is cancelled, by a function. */
#include "truth.h"
static uv_work_t jobs[8];
static uv_timer_t limit;
static void work_job(uv_work_t *request) { works("job", 50); }
static void on_job(uv_work_t *request, int status) {}
static void submit(uv_loop_t *loop, int at) {
    uv_queue_work(loop, &jobs[at], work_job, on_job);
}
static void give_up(void) {
    uv_cancel((uv_req_t *)&jobs[7]);
}
static void on_limit(uv_timer_t *timer) { give_up(); }
int main(void) {
    uv_loop_t *loop = uv_default_loop();
    for (int at = 0; at < 8; at++) submit(loop, at);
    uv_timer_init(loop, &limit);
    uv_timer_start(&limit, on_limit, 20, 0);
    uv_run(loop, UV_RUN_DEFAULT);
    return 0;
}
