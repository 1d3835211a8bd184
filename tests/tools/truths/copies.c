/* A callback that copies much memory. */
#include "truth.h"
enum { SIZE = 32 << 20 };
static uv_timer_t snap, beat;
static char *table, *copy;
static int beats;
static void snapshot(void) {
    for (int it = 0; it < 8; it++) memcpy(copy, table, SIZE), table[it]++;
}
static void on_snap(uv_timer_t *timer) {
    uint64_t begin = uv_hrtime(), processor = processor_ns();
    snapshot();
    all_of_it("snap", begin, processor);
    uv_close((uv_handle_t *)timer, NULL);
}
static void on_beat(uv_timer_t *timer) {
    if (++beats == 4) uv_close((uv_handle_t *)timer, NULL);
}
int main(void) {
    uv_loop_t *loop = uv_default_loop();
    memset(table = malloc(SIZE), 1, SIZE);
    memset(copy = malloc(SIZE), 2, SIZE);
    uv_timer_init(loop, &snap);
    uv_timer_init(loop, &beat);
    uv_timer_start(&snap, on_snap, 20, 0);
    uv_timer_start(&beat, on_beat, 30, 30);
    return uv_run(loop, UV_RUN_DEFAULT);
}
