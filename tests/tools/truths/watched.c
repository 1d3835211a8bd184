/* Two loops. That of the watchdog sends to the other one, whose timer takes 30 ms. */
#include "truth.h"
static uv_loop_t dog;
static uv_async_t ping, stop;
static uv_timer_t beat, slow;
static int pings;
static void on_ping(uv_async_t *async) {
    if (++pings < 2) return;
    uv_close((uv_handle_t *)async, NULL);
    uv_async_send(&stop);
}
static void on_slow(uv_timer_t *timer) { works("slow", 30); uv_close((uv_handle_t *)timer, NULL); }
static void on_beat(uv_timer_t *timer) { uv_async_send(&ping); if (pings) uv_timer_stop(timer); }
static void on_stop(uv_async_t *async) { uv_close((uv_handle_t *)async, NULL); uv_close((uv_handle_t *)&beat, NULL); }
static void run_dog(void *none) { uv_run(&dog, UV_RUN_DEFAULT); }
int main(void) {
    uv_loop_t *loop = uv_default_loop();
    uv_thread_t thread;
    uv_loop_init(&dog);
    uv_async_init(loop, &ping, on_ping);
    uv_timer_init(loop, &slow);
    uv_timer_start(&slow, on_slow, 15, 0);
    uv_async_init(&dog, &stop, on_stop);
    uv_timer_init(&dog, &beat);
    uv_timer_start(&beat, on_beat, 20, 20);
    uv_thread_create(&thread, run_dog, NULL);
    uv_run(loop, UV_RUN_DEFAULT);
    uv_thread_join(&thread);
    return 0;
}
