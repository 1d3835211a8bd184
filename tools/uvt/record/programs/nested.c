/* uv_run in a callback. */
#include <uv.h>

static uv_timer_t outer, inner;

static void on_inner(uv_timer_t *timer) {}

static void on_outer(uv_timer_t *timer) {
    uv_timer_start(&inner, on_inner, 5, 0);
    uv_run(timer->loop, UV_RUN_ONCE);
}

int main(void) {
    uv_loop_t *loop = uv_default_loop();
    uv_timer_init(loop, &outer);
    uv_timer_init(loop, &inner);
    uv_timer_start(&outer, on_outer, 1, 0);
    return uv_run(loop, UV_RUN_DEFAULT);
}
