/* Twelve jobs on four workers; three of them are cancelled, one of these in time, and one is queued again in its after callback. */
#include <stdio.h>
#include <unistd.h>
#include <uv.h>

static uv_work_t jobs[12];
static uv_timer_t cancel;
static int more;

static void hash(uv_work_t *request) {
    usleep(3000 + 1000 * ((request - jobs) * 7 % 5));
}

static void hashed(uv_work_t *request, int status) {
    printf("%d:%s ", (int)(request - jobs), status ? uv_err_name(status) : "ok");
    if (request == &jobs[2] && !more++) uv_queue_work(request->loop, request, hash, hashed);
}

static void on_cancel(uv_timer_t *timer) {
    uv_cancel((uv_req_t *)&jobs[1]);
    uv_cancel((uv_req_t *)&jobs[11]);
    uv_cancel((uv_req_t *)&jobs[9]);
}

int main(void) {
    uv_loop_t *loop = uv_default_loop();
    uv_timer_init(loop, &cancel);
    uv_timer_start(&cancel, on_cancel, 2, 0);
    for (int at = 0; at < 12; at++) uv_queue_work(loop, &jobs[at], hash, hashed);
    uv_run(loop, UV_RUN_DEFAULT);
    printf("\n");
    return 0;
}
