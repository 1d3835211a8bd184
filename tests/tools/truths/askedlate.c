/* A callback takes 200 ms, and asks for a job at its end: no worker is waited for. The loop's time is as old as the callback by then. */
#include "truth.h"
static uv_timer_t save;
static uv_work_t job;
static void work_job(uv_work_t *request) { works("job", 20); }
static void done(uv_work_t *request, int status) {}
static void on_save(uv_timer_t *timer) {
    works("save", 200);
    uv_queue_work(uv_default_loop(), &job, work_job, done);
}
int main(void) {
    uv_loop_t *loop = uv_default_loop();
    uv_timer_init(loop, &save);
    uv_timer_start(&save, on_save, 5, 0);
    return uv_run(loop, UV_RUN_DEFAULT);
}
