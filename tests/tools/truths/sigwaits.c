/* A callback that waits for a signal, up to a limit. */
#include <signal.h>
#include "truth.h"
static uv_timer_t ack, beat;
static int beats;
static void await_ack(void) {
    sigset_t those;
    sigemptyset(&those);
    sigaddset(&those, SIGUSR2);
    sigprocmask(SIG_BLOCK, &those, NULL);
    sigtimedwait(&those, NULL, &(struct timespec){.tv_nsec = 60000000});
}
static void on_ack(uv_timer_t *timer) {
    uint64_t begin = uv_hrtime(), processor = processor_ns();
    await_ack();
    all_of_it("ack", begin, processor);
    uv_close((uv_handle_t *)timer, NULL);
}
static void on_beat(uv_timer_t *timer) {
    if (++beats == 4) uv_close((uv_handle_t *)timer, NULL);
}
int main(void) {
    uv_loop_t *loop = uv_default_loop();
    uv_timer_init(loop, &ack);
    uv_timer_init(loop, &beat);
    uv_timer_start(&ack, on_ack, 20, 0);
    uv_timer_start(&beat, on_beat, 30, 30);
    return uv_run(loop, UV_RUN_DEFAULT);
}
