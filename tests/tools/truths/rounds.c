/* An idle handle whose callback takes long each time, and a timer that comes late for it. */
#include "truth.h"
static uv_idle_t idle;
static uv_timer_t beat;
static int turns;
static volatile long sum;
static void compute(uv_idle_t *handle) {
    uint64_t begin = uv_hrtime(), processor = processor_ns();
    for (long at = 0; at < 12000000; at++) sum += at;
    all_of_it("idle", begin, processor);
    if (++turns == 4) uv_close((uv_handle_t *)handle, NULL);
}
static void on_beat(uv_timer_t *timer) { uv_close((uv_handle_t *)timer, NULL); }
int main(void) {
    uv_idle_init(uv_default_loop(), &idle);
    uv_timer_init(uv_default_loop(), &beat);
    uv_idle_start(&idle, compute);
    uv_timer_start(&beat, on_beat, 5, 0);
    return uv_run(uv_default_loop(), UV_RUN_DEFAULT);
}
