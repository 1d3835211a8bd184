/* A callback that polls descriptors of its own, and waits there. */
#include <sys/epoll.h>
#include "truth.h"
static uv_timer_t drain, beat;
static int beats, own;
static int wait_for_peer(void) {
    struct epoll_event events[8];
    return epoll_wait(own, events, 8, 60);
}
static void on_drain(uv_timer_t *timer) {
    uint64_t begin = uv_hrtime(), processor = processor_ns();
    wait_for_peer();
    all_of_it("drain", begin, processor);
    uv_close((uv_handle_t *)timer, NULL);
}
static void on_beat(uv_timer_t *timer) {
    if (++beats == 4) uv_close((uv_handle_t *)timer, NULL);
}
int main(void) {
    uv_loop_t *loop = uv_default_loop();
    own = epoll_create1(0);
    uv_timer_init(loop, &drain);
    uv_timer_init(loop, &beat);
    uv_timer_start(&drain, on_drain, 20, 0);
    uv_timer_start(&beat, on_beat, 30, 30);
    return uv_run(loop, UV_RUN_DEFAULT);
}
