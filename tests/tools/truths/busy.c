/* The loop can't be closed: a timer that was stopped, an unreferenced async handle and a check handle are there still. */
#include "truth.h"
static uv_timer_t once;
static uv_async_t leak;
static uv_check_t look;
static uv_loop_t loop;
static void on_once(uv_timer_t *timer) { uv_timer_stop(timer); }
static void on_leak(uv_async_t *async) {}
static void close_it(uv_handle_t *handle, void *none) { if (!uv_is_closing(handle)) uv_close(handle, NULL); }
int main(void) {
    uv_loop_init(&loop);
    uv_timer_init(&loop, &once);
    uv_timer_start(&once, on_once, 10, 0);
    uv_async_init(&loop, &leak, on_leak);
    uv_unref((uv_handle_t *)&leak);
    uv_check_init(&loop, &look);
    uv_run(&loop, UV_RUN_DEFAULT);
    if (uv_loop_close(&loop) != UV_EBUSY) return 1;
    uv_walk(&loop, close_it, NULL);
    uv_run(&loop, UV_RUN_DEFAULT);
    return uv_loop_close(&loop) != 0;
}
