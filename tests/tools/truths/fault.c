/* The fourth reply writes to where nothing is. */
#include "truth.h"
static uv_timer_t reply[5], other;
static int *left[5], room[5];
static void on_reply(uv_timer_t *timer) { --*left[timer - reply]; }
static void on_other(uv_timer_t *timer) { works("other", 6); }
int main(void) {
    uv_loop_t *loop = uv_default_loop();
    setvbuf(stdout, NULL, _IONBF, 0);
    uv_timer_init(loop, &other);
    uv_timer_start(&other, on_other, 15, 0);
    for (int at = 0; at < 5; at++) {
        left[at] = at == 3 ? NULL : &room[at];
        uv_timer_init(loop, &reply[at]);
        uv_timer_start(&reply[at], on_reply, 10 * at + 10, 0);
    }
    return uv_run(loop, UV_RUN_DEFAULT);
}
