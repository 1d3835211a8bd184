/* A program that replaces itself, by another one that has a loop too: what the first one's loop did is kept. */
#include "truth.h"
static uv_timer_t prepare_it;
static void on_prepare(uv_timer_t *timer) { works("prepare_it", 30); }
int main(int count, char **words) {
    uv_loop_t *loop = uv_default_loop();
    uv_timer_init(loop, &prepare_it);
    uv_timer_start(&prepare_it, on_prepare, 10, 0);
    uv_run(loop, UV_RUN_DEFAULT);
    fflush(stdout);
    if (count == 1) execl(words[0], words[0], "again", (char *)NULL);
    return 0;
}
