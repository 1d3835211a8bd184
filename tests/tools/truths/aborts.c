/* A callback finds that something can't be, and aborts: the third reply's. */
#include "truth.h"
static uv_timer_t replies[4];
static void check_it(int at) {
    if (at == 2) abort();
}
static void on_reply(uv_timer_t *timer) { check_it((int)(timer - replies)); }
int main(void) {
    uv_loop_t *loop = uv_default_loop();
    for (int at = 0; at < 4; at++) {
        uv_timer_init(loop, &replies[at]);
        uv_timer_start(&replies[at], on_reply, 5 * (at + 1), 0);
    }
    uv_run(loop, UV_RUN_DEFAULT);
    return 0;
}
