/* A retry that is unreferenced: nothing keeps the loop alive for it. And a request in time, and one too late, to be cancelled. */
#include "truth.h"
static uv_timer_t retry, abort_all;
static uv_work_t jobs[6];
static void on_retry(uv_timer_t *timer) { says("retry", "called"); }
static void work_job(uv_work_t *request) { works("job", 60); }
static void done(uv_work_t *request, int status) { says("job", status ? uv_err_name(status) : "ok"); }
static void on_abort(uv_timer_t *timer) {
    for (int at = 0; at < 6; at++) uv_cancel((uv_req_t *)&jobs[at]);
}
int main(void) {
    uv_loop_t *loop = uv_default_loop();
    uv_timer_init(loop, &retry);
    uv_timer_start(&retry, on_retry, 500, 0);
    uv_unref((uv_handle_t *)&retry);
    uv_timer_init(loop, &abort_all);
    uv_timer_start(&abort_all, on_abort, 30, 0);
    for (int at = 0; at < 6; at++) uv_queue_work(loop, &jobs[at], work_job, done);
    uv_run(loop, UV_RUN_DEFAULT);
    return 0;
}
