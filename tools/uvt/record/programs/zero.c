/* A timer that is started with 0 in its own callback: libuv calls it again at once, before the prepare handle. */
#include <uv.h>

static uv_timer_t again;
static uv_prepare_t prepare;
static int calls;

static void on_again(uv_timer_t *timer) {
    if (++calls < 3) uv_timer_start(timer, on_again, 0, 0);
}

static void on_prepare(uv_prepare_t *handle) {
    uv_prepare_stop(handle);
}

int main(void) {
    uv_loop_t *loop = uv_default_loop();
    uv_timer_init(loop, &again);
    uv_prepare_init(loop, &prepare);
    uv_prepare_start(&prepare, on_prepare);
    uv_timer_start(&again, on_again, 0, 0);
    return uv_run(loop, UV_RUN_DEFAULT);
}
