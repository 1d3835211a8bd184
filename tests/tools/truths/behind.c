/* A repeating timer of 10 ms, and a callback of 47 ms beside it each 60 ms. */
#include "truth.h"
static uv_timer_t sample, flush;
static int calls;
static void on_sample(uv_timer_t *timer) {}
static void on_flush(uv_timer_t *timer) {
    works("flush", 47);
    if (++calls < 3) return;
    uv_close((uv_handle_t *)&sample, NULL);
    uv_close((uv_handle_t *)&flush, NULL);
}
int main(void) {
    uv_loop_t *loop = uv_default_loop();
    uv_timer_init(loop, &sample);
    uv_timer_init(loop, &flush);
    uv_timer_start(&sample, on_sample, 10, 10);
    uv_timer_start(&flush, on_flush, 65, 60);
    return uv_run(loop, UV_RUN_DEFAULT);
}
