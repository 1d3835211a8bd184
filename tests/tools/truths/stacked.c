/* A timer on the stack of a function that returns while it is set. */
#include "truth.h"
#include <string.h>
static uv_timer_t beat;
static int beats;
static void on_deadline(uv_timer_t *timer) { (void)timer; }
static void arm(void) {
    uv_timer_t deadline;
    uv_timer_init(uv_default_loop(), &deadline);
    uv_timer_start(&deadline, on_deadline, 10000, 0);
}
static void fill(void) {
    volatile char room[4096];
    memset((char *)room, 0x5a, sizeof room);
}
static void on_beat(uv_timer_t *timer) {
    (void)timer;
    fill();
    works("beat", 6);
    if (++beats == 3) _exit(0);
}
int main(void) {
    setvbuf(stdout, NULL, _IONBF, 0);
    uv_timer_init(uv_default_loop(), &beat);
    uv_timer_start(&beat, on_beat, 20, 20);
    arm();
    return uv_run(uv_default_loop(), UV_RUN_DEFAULT);
}
