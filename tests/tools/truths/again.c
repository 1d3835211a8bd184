/* uv_timer_again of a timer that doesn't repeat changes nothing: it is called at 50 ms, as it was started. */
#include "truth.h"
static uv_timer_t inactivity, traffic;
static int calls;
static void on_inactivity(uv_timer_t *timer) { says("inactivity", "called"); }
static void on_traffic(uv_timer_t *timer) {
    uv_timer_again(&inactivity);
    if (++calls == 4) uv_timer_stop(timer);
}
int main(void) {
    uv_loop_t *loop = uv_default_loop();
    uv_timer_init(loop, &inactivity);
    uv_timer_init(loop, &traffic);
    uv_timer_start(&inactivity, on_inactivity, 50, 0);
    uv_timer_start(&traffic, on_traffic, 20, 20);
    return uv_run(loop, UV_RUN_DEFAULT);
}
