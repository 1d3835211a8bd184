/* A timer that is started late in a long callback, behind uv_update_time. */
#include "truth.h"
static uv_timer_t first, second;
static uint64_t started;
static void on_second(uv_timer_t *timer) {
    waited("second", "timer", started);
    uv_close((uv_handle_t *)timer, NULL);
}
static void on_first(uv_timer_t *timer) {
    works("first", 60);
    uv_update_time(timer->loop);
    started = uv_hrtime();
    uv_timer_start(&second, on_second, 40, 0);
    uv_close((uv_handle_t *)timer, NULL);
}
int main(void) {
    uv_loop_t *loop = uv_default_loop();
    uv_timer_init(loop, &first);
    uv_timer_init(loop, &second);
    uv_timer_start(&first, on_first, 20, 0);
    return uv_run(loop, UV_RUN_DEFAULT);
}
