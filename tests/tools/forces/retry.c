/* docs/FIND.md 4: the answer comes after all was given up */
#include <stdio.h>
#include <stdlib.h>
#include <uv.h>
static uv_work_t request;
static uv_timer_t *retry, limit;
static int tries;
static void get(uv_work_t *r) { uv_sleep(2); }
static void again(uv_timer_t *t) { printf("retry\n"); }
static void got(uv_work_t *r, int s) { uv_timer_start(retry, again, 10, 0); }
static void freed(uv_handle_t *h) { free(h); }
static void on_limit(uv_timer_t *t) {
    uv_close((uv_handle_t *)retry, freed);
    uv_close((uv_handle_t *)t, NULL);
}
int main(void) {
    uv_loop_t *loop = uv_default_loop();
    retry = malloc(sizeof *retry);
    uv_timer_init(loop, retry);
    uv_timer_init(loop, &limit);
    uv_timer_start(&limit, on_limit, 30, 0);
    uv_queue_work(loop, &request, get, got);
    uv_run(loop, UV_RUN_DEFAULT);
    return tries;
}
