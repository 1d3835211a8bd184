/* A callback that waits for a child by waitid. */
#include <sys/wait.h>
#include "truth.h"
static uv_timer_t tidy, beat;
static int beats;
static pid_t helper;
static void await_helper(void) {
    siginfo_t info;
    waitid(P_PID, (id_t)helper, &info, WEXITED);
}
static void on_tidy(uv_timer_t *timer) {
    uint64_t begin = uv_hrtime(), processor = processor_ns();
    await_helper();
    all_of_it("tidy", begin, processor);
    uv_close((uv_handle_t *)timer, NULL);
}
static void on_beat(uv_timer_t *timer) {
    if (++beats == 4) uv_close((uv_handle_t *)timer, NULL);
}
int main(void) {
    if ((helper = fork()) == 0) {
        usleep(100000);
        _exit(0);
    }
    uv_loop_t *loop = uv_default_loop();
    uv_timer_init(loop, &tidy);
    uv_timer_init(loop, &beat);
    uv_timer_start(&tidy, on_tidy, 20, 0);
    uv_timer_start(&beat, on_beat, 30, 30);
    return uv_run(loop, UV_RUN_DEFAULT);
}
