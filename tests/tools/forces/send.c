/* docs/FIND.md 2: a thread reports its progress; the loop closes the handle after 20 ms. */
#include <stdio.h>
#include <stdlib.h>
#include <uv.h>
static uv_async_t *progress;
static uv_timer_t limit;
static void on_progress(uv_async_t *a) { printf("progress\n"); }
static void freed(uv_handle_t *h) { free(h); }
static void on_limit(uv_timer_t *t) {
    uv_close((uv_handle_t *)progress, freed);
    uv_close((uv_handle_t *)t, NULL);
}
static void report(void *none) {
    for (int i = 0; i < 2; i++) { uv_sleep(5); uv_async_send(progress); }
}
int main(void) {
    uv_thread_t thread;
    uv_loop_t *loop = uv_default_loop();
    progress = malloc(sizeof *progress);
    uv_async_init(loop, progress, on_progress);
    uv_timer_init(loop, &limit);
    uv_timer_start(&limit, on_limit, 20, 0);
    uv_thread_create(&thread, report, NULL);
    uv_run(loop, UV_RUN_DEFAULT);
    uv_thread_join(&thread);
    return 0;
}
