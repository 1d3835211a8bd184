/* An idle handle works 30 ms in each iteration. A timer and a send of another thread wait for that. */
#include "truth.h"
static uv_idle_t background;
static uv_timer_t tick;
static uv_async_t inbox;
static int rounds;
static void on_inbox(uv_async_t *async) { says("inbox", "called"); }
static void on_tick(uv_timer_t *timer) { says("tick", "called"); }
static void on_background(uv_idle_t *idle) {
    works("background", 30);
    if (++rounds < 5) return;
    uv_idle_stop(idle);
    uv_timer_stop(&tick);
    uv_close((uv_handle_t *)&inbox, NULL);
}
static void sender(void *none) {
    usleep(40000);
    uv_async_send(&inbox);
}
int main(void) {
    uv_loop_t *loop = uv_default_loop();
    uv_thread_t thread;
    uv_idle_init(loop, &background);
    uv_timer_init(loop, &tick);
    uv_async_init(loop, &inbox, on_inbox);
    uv_idle_start(&background, on_background);
    uv_timer_start(&tick, on_tick, 10, 10);
    uv_thread_create(&thread, sender, NULL);
    uv_run(loop, UV_RUN_DEFAULT);
    return uv_thread_join(&thread);
}
