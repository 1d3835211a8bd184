/* A program without symbols (`strip`): its callback works for 40 ms. */
#include "truth.h"
static uv_timer_t *hog, *beat;
static void on_hog(uv_timer_t *timer) { works("timer", 40); }
static void on_beat(uv_timer_t *timer) { uv_close((uv_handle_t *)timer, (uv_close_cb)free); }
int main(void) {
    uv_loop_t *loop = uv_default_loop();
    hog = malloc(sizeof *hog);
    beat = malloc(sizeof *beat);
    uv_timer_init(loop, hog);
    uv_timer_init(loop, beat);
    uv_timer_start(hog, on_hog, 10, 0);
    uv_timer_start(beat, on_beat, 20, 0);
    uv_run(loop, UV_RUN_DEFAULT);
    free(hog);
    return 0;
}
