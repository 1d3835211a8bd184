/* A callback of uv_poll that doesn't read what came: it is called again and again, until a timer stops it. */
#include "truth.h"
static uv_poll_t readable;
static uv_timer_t stop;
static int pair[2], calls;
static void on_readable(uv_poll_t *poll, int status, int events) {
    uint64_t begin = uv_hrtime();
    while (uv_hrtime() - begin < 100000) continue;
    calls++;
}
static void on_stop(uv_timer_t *timer) {
    printf("readable was called %d times\n", calls);
    uv_poll_stop(&readable);
}
int main(void) {
    uv_loop_t *loop = uv_default_loop();
    if (pipe(pair) != 0 || write(pair[1], "x", 1) != 1) return 1;
    uv_poll_init(loop, &readable, pair[0]);
    uv_poll_start(&readable, UV_READABLE, on_readable);
    uv_timer_init(loop, &stop);
    uv_timer_start(&stop, on_stop, 4, 0);
    return uv_run(loop, UV_RUN_DEFAULT);
}
