/* docs/FIND.md 1: a cancel that comes too late. */
#include <stdio.h>
#include <uv.h>
static uv_work_t job;
static uv_timer_t limit;
static void work(uv_work_t *r) { uv_sleep(1); }
static void after(uv_work_t *r, int status) {
    printf("after: %s\n", status ? uv_err_name(status) : "ok");
    if (!uv_is_closing((uv_handle_t *)&limit)) uv_close((uv_handle_t *)&limit, NULL);
}
static void on_limit(uv_timer_t *t) {
    int r = uv_cancel((uv_req_t *)&job);
    printf("cancel: %s\n", r ? uv_err_name(r) : "ok");
    uv_close((uv_handle_t *)t, NULL);
}
int main(void) {
    uv_loop_t *loop = uv_default_loop();
    uv_queue_work(loop, &job, work, after);
    uv_timer_init(loop, &limit);
    uv_timer_start(&limit, on_limit, 50, 0);
    uv_run(loop, UV_RUN_DEFAULT);
    return 0;
}
