/* A callback that gives much memory back. */
#include <sys/mman.h>
#include "truth.h"
enum { SIZE = 512 << 20 };
static uv_timer_t shrink, beat;
static char *arena;
static int beats;
static void drop_arena(void) {
    munmap(arena, SIZE);
}
static void on_shrink(uv_timer_t *timer) {
    uint64_t begin = uv_hrtime(), processor = processor_ns();
    drop_arena();
    all_of_it("shrink", begin, processor);
    uv_close((uv_handle_t *)timer, NULL);
}
static void on_beat(uv_timer_t *timer) {
    if (++beats == 4) uv_close((uv_handle_t *)timer, NULL);
}
int main(void) {
    uv_loop_t *loop = uv_default_loop();
    arena = mmap(NULL, SIZE, PROT_READ | PROT_WRITE, MAP_PRIVATE | MAP_ANONYMOUS, -1, 0);
    madvise(arena, SIZE, MADV_NOHUGEPAGE);
    memset(arena, 1, SIZE);
    uv_timer_init(loop, &shrink);
    uv_timer_init(loop, &beat);
    uv_timer_start(&shrink, on_shrink, 20, 0);
    uv_timer_start(&beat, on_beat, 30, 30);
    return uv_run(loop, UV_RUN_DEFAULT);
}
