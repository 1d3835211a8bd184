/* A timer that starts itself again with 0, 300 times, and a run of one iteration behind it that leaves a timer uncalled. */
#include "truth.h"
static uv_timer_t next, missed;
static int calls;
static void on_next(uv_timer_t *timer) {
    if (++calls < 300) uv_timer_start(timer, on_next, 1, 0);
}
static void on_missed(uv_timer_t *timer) { says("missed", "called"); }
int main(void) {
    uv_loop_t *loop = uv_default_loop();
    uv_timer_init(loop, &next);
    uv_timer_start(&next, on_next, 1, 0);
    uv_run(loop, UV_RUN_DEFAULT);
    uv_timer_init(loop, &missed);
    uv_timer_start(&missed, on_missed, 40, 0);
    uv_run(loop, UV_RUN_NOWAIT);
    return 0;
}
