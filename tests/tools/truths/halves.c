/* A callback that works for 30 ms and then waits for a child for 40 ms. */
#include "truth.h"
static uv_timer_t convert, beat;
static void on_convert(uv_timer_t *timer) {
    uint64_t begin = uv_hrtime(), processor = processor_ns();
    while (processor_ns() - processor < 30000000) continue;
    if (system("sleep 0.04") != 0) puts("no child");
    all_of_it("convert", begin, processor);
}
static void on_beat(uv_timer_t *timer) { uv_close((uv_handle_t *)timer, NULL); }
int main(void) {
    uv_loop_t *loop = uv_default_loop();
    uv_timer_init(loop, &convert);
    uv_timer_init(loop, &beat);
    uv_timer_start(&convert, on_convert, 10, 0);
    uv_timer_start(&beat, on_beat, 30, 0);
    uv_run(loop, UV_RUN_DEFAULT);
    return 0;
}
