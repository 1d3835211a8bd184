/* A callback takes 80 ms, and starts a timer of 50 at its end. libuv reckons from the loop's time, which is as old as the callback: so the timer is
 * due before it was started. The poll goes by that time, too, and waits the 50 ms: the timer is called when its program expects it. */
#include "truth.h"
static uv_timer_t input, debounce;
static void on_debounce(uv_timer_t *timer) {}
static void on_input(uv_timer_t *timer) {
    works("input", 80);
    uv_timer_start(&debounce, on_debounce, 50, 0);
}
int main(void) {
    uv_loop_t *loop = uv_default_loop();
    uv_timer_init(loop, &input);
    uv_timer_init(loop, &debounce);
    uv_timer_start(&input, on_input, 5, 0);
    return uv_run(loop, UV_RUN_DEFAULT);
}
