/* An idle handle that was started to see one iteration, and never stopped: nothing is to be done, and no poll waits. */
#include "truth.h"
static uv_idle_t once;
static uv_timer_t stop;
static void on_once(uv_idle_t *idle) {
    uint64_t begin = uv_hrtime();
    while (uv_hrtime() - begin < 100000) continue;
}
static void on_stop(uv_timer_t *timer) {
    works("stop", 8);
    uv_idle_stop(&once);
}
int main(void) {
    uv_loop_t *loop = uv_default_loop();
    uv_idle_init(loop, &once);
    uv_idle_start(&once, on_once);
    uv_timer_init(loop, &stop);
    uv_timer_start(&stop, on_stop, 12, 0);
    return uv_run(loop, UV_RUN_DEFAULT);
}
