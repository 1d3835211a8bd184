/* A job takes so long that a heart beats meanwhile, as one thinks: status 4 where it has not. */
#include <uv.h>
static uv_work_t job;
static uv_timer_t heart;
static int beats, status_of_all;
static void take_long(uv_work_t *r) { uv_sleep(400); }
static void on_beat(uv_timer_t *t) { beats++; }
static void was_done(uv_work_t *r, int status) {
    if (!beats) status_of_all = 4;
    uv_close((uv_handle_t *)&heart, NULL);
}
int main(void) {
    uv_loop_t *l = uv_default_loop();
    uv_timer_init(l, &heart);
    uv_timer_start(&heart, on_beat, 50, 50);
    uv_queue_work(l, &job, take_long, was_done);
    uv_run(l, UV_RUN_DEFAULT);
    return status_of_all;
}
