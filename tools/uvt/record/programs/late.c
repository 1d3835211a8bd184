/* A heartbeat of 20 ms, and a report that takes too long at once: one beat is late. */
#include <stdio.h>
#include <uv.h>

static uv_timer_t heartbeat, report;
static int beats;

static void work_for(int ms) {
    uint64_t start = uv_hrtime();
    while (uv_hrtime() - start < ms * 1000000ull) {}
}

static void on_beat(uv_timer_t *timer) {
    static uint64_t last;
    uint64_t now = uv_hrtime() / 1000000;
    if (last && now - last > 30) printf("beat %d is late: %d ms\n", beats, (int)(now - last));
    last = now;
    if (++beats == 8) uv_close((uv_handle_t *)timer, NULL);
}

static void on_report(uv_timer_t *timer) {
    work_for(77);
    uv_close((uv_handle_t *)timer, NULL);
}

int main(void) {
    uv_loop_t *loop = uv_default_loop();
    uv_timer_init(loop, &heartbeat);
    uv_timer_start(&heartbeat, on_beat, 20, 20);
    uv_timer_init(loop, &report);
    uv_timer_start(&report, on_report, 50, 0);
    uv_run(loop, UV_RUN_DEFAULT);
    return uv_loop_close(loop);
}
