/* Another loop feeds this one's watchdog each 20 ms; once its callback works for 70 ms before it does: so the watchdog hears of it late. */
#include "truth.h"
static uv_loop_t feeder;
static uv_timer_t feed, end;
static uv_async_t watchdog, quit;
static uv_thread_t thread;
static int fed;
static void on_feed(uv_timer_t *timer) {
    if (++fed == 3) works("feed", 70);
    uv_async_send(&watchdog);
    if (fed == 4) uv_close((uv_handle_t *)timer, NULL);
}
static void run_feeder(void *none) {
    uv_timer_init(&feeder, &feed);
    uv_timer_start(&feed, on_feed, 20, 20);
    uv_run(&feeder, UV_RUN_DEFAULT);
}
static void on_watchdog(uv_async_t *handle) { says("watchdog", "called"); }
static void on_end(uv_timer_t *timer) {
    uv_thread_join(&thread);
    uv_close((uv_handle_t *)&watchdog, NULL);
    uv_close((uv_handle_t *)timer, NULL);
}
int main(void) {
    uv_loop_t *loop = uv_default_loop();
    uv_async_init(loop, &watchdog, on_watchdog);
    uv_timer_init(loop, &end);
    uv_timer_start(&end, on_end, 250, 0);
    usleep(30000);
    uv_loop_init(&feeder);
    uv_thread_create(&thread, run_feeder, NULL);
    uv_run(loop, UV_RUN_DEFAULT);
    return 0;
}
