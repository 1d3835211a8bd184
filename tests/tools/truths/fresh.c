/* A callback that touches 200 MB for the first time: page faults, so the kernel has the time. */
#include <sys/mman.h>
#include "truth.h"
static uv_timer_t cache, beat;
static void on_cache(uv_timer_t *timer) {
    uint64_t begin = uv_hrtime(), processor = processor_ns();
    size_t size = 200u << 20;
    char *bytes = mmap(NULL, size, PROT_READ | PROT_WRITE, MAP_PRIVATE | MAP_ANONYMOUS, -1, 0);
    madvise(bytes, size, MADV_NOHUGEPAGE);
    for (size_t at = 0; at < size; at += 4096) bytes[at] = 1;
    munmap(bytes, size);
    all_of_it("cache", begin, processor);
}
static void on_beat(uv_timer_t *timer) { uv_close((uv_handle_t *)timer, NULL); }
int main(void) {
    uv_loop_t *loop = uv_default_loop();
    uv_timer_init(loop, &cache);
    uv_timer_init(loop, &beat);
    uv_timer_start(&cache, on_cache, 20, 0);
    uv_timer_start(&beat, on_beat, 40, 0);
    uv_run(loop, UV_RUN_DEFAULT);
    return 0;
}
