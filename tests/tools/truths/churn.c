/* A timer is started anew from three places, by one function. */
#include "truth.h"
static uv_timer_t idle_out, first, second;
static void on_idle_out(uv_timer_t *timer) { says("idle_out", "called"); }
static void rearm(unsigned ms) {
    uv_timer_start(&idle_out, on_idle_out, ms, 0);
}
static void on_first(uv_timer_t *timer) { rearm(40); }
static void on_second(uv_timer_t *timer) {
    rearm(30);
}
int main(void) {
    uv_loop_t *loop = uv_default_loop();
    uv_timer_init(loop, &idle_out);
    uv_timer_init(loop, &first);
    uv_timer_init(loop, &second);
    uv_timer_start(&first, on_first, 10, 0);
    uv_timer_start(&second, on_second, 20, 0);
    rearm(50);
    uv_run(loop, UV_RUN_DEFAULT);
    return 0;
}
