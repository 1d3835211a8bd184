/* A timer that is started again in its own callback, behind 13 ms of work: it comes each 15 ms by the loop's time, and that is old then. */
#include "truth.h"
static uv_timer_t beat;
static int calls;
static void on_beat(uv_timer_t *timer) {
    works("beat", 13);
    if (++calls < 6) uv_timer_start(timer, on_beat, 15, 0);
}
int main(void) {
    uv_timer_init(uv_default_loop(), &beat);
    uv_timer_start(&beat, on_beat, 20, 0);
    return uv_run(uv_default_loop(), UV_RUN_DEFAULT);
}
