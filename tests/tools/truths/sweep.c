/* A callback closes forty handles, and each close callback takes a millisecond: it is all of them together that make the timer late. */
#include "truth.h"
#define MANY 40
static uv_timer_t beat;
static uv_idle_t sessions[MANY];
static void on_closed(uv_handle_t *handle) {
    uint64_t begin = uv_hrtime();
    while (uv_hrtime() - begin < 1000000) continue;
}
static void on_beat(uv_timer_t *timer) {
    static int calls;
    if (++calls == 2) uv_timer_stop(timer);
    for (int at = 0; calls == 1 && at < MANY; at++) uv_close((uv_handle_t *)&sessions[at], on_closed);
}
int main(void) {
    uv_loop_t *loop = uv_default_loop();
    for (int at = 0; at < MANY; at++) uv_idle_init(loop, &sessions[at]);
    uv_timer_init(loop, &beat);
    uv_timer_start(&beat, on_beat, 10, 10);
    return uv_run(loop, UV_RUN_DEFAULT);
}
