/* A callback that sleeps for 60 ms: it took them, and was not on the processor. */
#include "truth.h"
static uv_timer_t flush, beat;
static void on_flush(uv_timer_t *timer) {
    uint64_t begin = uv_hrtime(), processor = processor_ns();
    usleep(60000);
    all_of_it("flush", begin, processor);
}
static void on_beat(uv_timer_t *timer) { uv_close((uv_handle_t *)timer, NULL); }
int main(void) {
    uv_loop_t *loop = uv_default_loop();
    uv_timer_init(loop, &flush);
    uv_timer_init(loop, &beat);
    uv_timer_start(&flush, on_flush, 10, 0);
    uv_timer_start(&beat, on_beat, 30, 0);
    uv_run(loop, UV_RUN_DEFAULT);
    return 0;
}
