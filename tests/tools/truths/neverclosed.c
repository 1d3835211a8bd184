/* uv_close in a callback at the end of a run of one iteration, and no run behind: the close callback never comes. */
#include "truth.h"
static uv_timer_t session, later;
static void on_closed(uv_handle_t *handle) { says("session", "closed"); }
static void on_session(uv_timer_t *timer) {
    uv_close((uv_handle_t *)timer, on_closed);
}
static void on_later(uv_timer_t *timer) { says("later", "called"); }
int main(void) {
    uv_loop_t *loop = uv_default_loop();
    uv_timer_init(loop, &session);
    uv_timer_init(loop, &later);
    uv_timer_start(&session, on_session, 10, 0);
    uv_timer_start(&later, on_later, 30, 0);
    uv_run(loop, UV_RUN_ONCE);
    return 0;
}
