/* A job that is cancelled: where that comes in time its memory goes at once, and its after callback is to come yet. */
#include <stdio.h>
#include <stdlib.h>
#include <uv.h>
struct job { uv_work_t work; int done; };
static struct job *job;
static uv_timer_t limit;
static void do_job(uv_work_t *r) { uv_sleep(40); }
static void after_job(uv_work_t *r, int status) {
    struct job *mine = r->data;
    mine->done = status == 0;
    free(mine);
    job = NULL;
}
static void on_limit(uv_timer_t *t) {
    if (job && uv_cancel((uv_req_t *)&job->work) == 0) free(job);
    uv_close((uv_handle_t *)t, NULL);
}
int main(void) {
    uv_loop_t *loop = uv_default_loop();
    uv_timer_init(loop, &limit);
    uv_timer_start(&limit, on_limit, 20, 0);
    job = calloc(1, sizeof *job);
    job->work.data = job;
    uv_queue_work(loop, &job->work, do_job, after_job);
    return uv_run(loop, UV_RUN_DEFAULT);
}
