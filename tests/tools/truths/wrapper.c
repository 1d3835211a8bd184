/* A library of inline functions stands between the program and libuv: what they are called from is told, too. */
#include "truth.h"
static uv_timer_t retry;
static void on_retry(uv_timer_t *timer) { says("retry", "called"); }
static inline __attribute__((always_inline)) void start_in(uv_timer_t *timer, uv_timer_cb callback, unsigned ms) {
    uv_timer_start(timer, callback, ms, 0);
}
static __attribute__((noinline)) void plan(void) {
    start_in(&retry, on_retry, 20);
}
int main(void) {
    uv_timer_init(uv_default_loop(), &retry);
    plan();
    uv_run(uv_default_loop(), UV_RUN_DEFAULT);
    return 0;
}
