/* A callback with 30 ms of work, on a processor that three other processes want as well. */
#define _GNU_SOURCE
#include <sched.h>
#include <signal.h>
#include "truth.h"
static uv_timer_t work, beat;
static int beats;
static void price(void) {
    uint64_t begin = processor_ns();
    while (processor_ns() - begin < 30000000) continue;
}
static void on_work(uv_timer_t *timer) {
    uint64_t begin = uv_hrtime(), processor = processor_ns();
    price();
    all_of_it("work", begin, processor);
    uv_close((uv_handle_t *)timer, NULL);
}
static void on_beat(uv_timer_t *timer) {
    if (++beats == 10) uv_close((uv_handle_t *)timer, NULL);
}
int main(void) {
    cpu_set_t one;
    CPU_ZERO(&one);
    CPU_SET(3, &one);
    sched_setaffinity(0, sizeof one, &one);
    pid_t hogs[3];
    for (int it = 0; it < 3; it++)
        if ((hogs[it] = fork()) == 0)
            for (;;) continue;
    uv_loop_t *loop = uv_default_loop();
    uv_timer_init(loop, &work);
    uv_timer_init(loop, &beat);
    uv_timer_start(&work, on_work, 20, 0);
    uv_timer_start(&beat, on_beat, 15, 15);
    uv_run(loop, UV_RUN_DEFAULT);
    for (int it = 0; it < 3; it++) kill(hogs[it], SIGKILL);
    return 0;
}
