/* A callback of 150 ms on the processor: 120 of them in rebuild_index, which apply calls, and 30 in render. */
#include "truth.h"
static uv_timer_t request, beat;
static volatile unsigned mixed;
static void burn(unsigned ms) {
    uint64_t begin = processor_ns();
    while (processor_ns() - begin < ms * 1000000ull)
        for (int at = 0; at < 20000; at++) mixed = mixed * 31 + (unsigned)at;
}
__attribute__((noinline)) static void rebuild_index(void) {
    burn(60);
    mixed++;
}
__attribute__((noinline)) static void apply(void) {
    rebuild_index();
    rebuild_index();
    mixed++;
}
__attribute__((noinline)) static void render(void) {
    burn(30);
    mixed++;
}
static void on_request(uv_timer_t *timer) {
    uint64_t begin = uv_hrtime(), processor = processor_ns();
    apply();
    render();
    all_of_it("request", begin, processor);
}
static void on_beat(uv_timer_t *timer) { uv_close((uv_handle_t *)timer, NULL); }
int main(void) {
    uv_loop_t *loop = uv_default_loop();
    uv_timer_init(loop, &request);
    uv_timer_init(loop, &beat);
    uv_timer_start(&request, on_request, 20, 0);
    uv_timer_start(&beat, on_beat, 40, 0);
    uv_run(loop, UV_RUN_DEFAULT);
    return 0;
}
