/* Another thread starts a timer of a loop that runs: libuv isn't made for that. The callback under way has nothing to do with it. */
#include "truth.h"
static uv_timer_t innocent, wrong;
static void on_innocent(uv_timer_t *timer) { works("innocent", 40); }
static void on_wrong(uv_timer_t *timer) { says("wrong", "called"); }
static void other(void *none) {
    usleep(30000);
    uv_timer_start(&wrong, on_wrong, 50, 0);
}
int main(void) {
    uv_loop_t *loop = uv_default_loop();
    uv_thread_t thread;
    uv_timer_init(loop, &innocent);
    uv_timer_init(loop, &wrong);
    uv_timer_start(&innocent, on_innocent, 10, 0);
    uv_thread_create(&thread, other, NULL);
    uv_run(loop, UV_RUN_DEFAULT);
    return uv_thread_join(&thread);
}
