/* A heartbeat alone, on a processor that six other processes want as well: nothing of its own is late. */
#define _GNU_SOURCE
#include <sched.h>
#include <signal.h>
#include <sys/resource.h>
#include "truth.h"
static uv_timer_t beat;
static int beats;
static void on_beat(uv_timer_t *timer) {
    uint64_t begin = uv_hrtime(), processor = processor_ns();
    while (processor_ns() - processor < 2000000) continue;
    all_of_it("beat", begin, processor);
    if (++beats == 12) uv_close((uv_handle_t *)timer, NULL);
}
int main(void) {
    cpu_set_t one;
    CPU_ZERO(&one);
    CPU_SET(3, &one);
    sched_setaffinity(0, sizeof one, &one);
    pid_t hogs[6];
    for (int it = 0; it < 6; it++)
        if ((hogs[it] = fork()) == 0)
            for (;;) continue;
    setpriority(PRIO_PROCESS, 0, 5);
    uv_loop_t *loop = uv_default_loop();
    uv_timer_init(loop, &beat);
    uv_timer_start(&beat, on_beat, 15, 15);
    uv_run(loop, UV_RUN_DEFAULT);
    for (int it = 0; it < 6; it++) kill(hogs[it], SIGKILL);
    return 0;
}
