/* So many timers, each started anew in its callback, and 50 check handles, a third of them unreferenced, for tests/recorder/flight: many SECONDS
 * TIMERS */
#include <stdlib.h>
#include <uv.h>

enum { CHECKS = 50 };

static uv_check_t checks[CHECKS];
static uv_timer_t *timers, end;
static int count;

static void on_check(uv_check_t *handle) {
    (void)handle;
}

static void on_timer(uv_timer_t *handle) {
    uint64_t ms = (uint64_t)(10 + (handle - timers) % 90);
    uv_timer_start(handle, on_timer, ms * (uint64_t)count / 3000 + 1, 0);
}

static void on_end(uv_timer_t *handle) {
    (void)handle;
    exit(0);
}

int main(int words, char **word) {
    uv_loop_t *loop = uv_default_loop();
    if (words < 3) return 2;
    count = atoi(word[2]);
    timers = calloc((size_t)count, sizeof *timers);
    for (int at = 0; at < CHECKS; at++) {
        uv_check_init(loop, &checks[at]);
        uv_check_start(&checks[at], on_check);
        if (at % 3 == 0) uv_unref((uv_handle_t *)&checks[at]);
    }
    for (int at = 0; at < count; at++) {
        uv_timer_init(loop, &timers[at]);
        uv_timer_start(&timers[at], on_timer, (uint64_t)(at % 100), 0);
    }
    uv_timer_init(loop, &end);
    uv_timer_start(&end, on_end, (uint64_t)atoi(word[1]) * 1000, 0);
    return uv_run(loop, UV_RUN_DEFAULT);
}
