/* A program that is ended by a signal in a callback: its log goes up to there. */
#include <stdlib.h>
#include <uv.h>

static uv_timer_t tick;
static int calls;

static void on_tick(uv_timer_t *timer) {
    if (++calls == 3) abort();
}

int main(void) {
    uv_loop_t *loop = uv_default_loop();
    uv_timer_init(loop, &tick);
    uv_timer_start(&tick, on_tick, 2, 2);
    return uv_run(loop, UV_RUN_DEFAULT);
}
