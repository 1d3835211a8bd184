/* Two threads report, and who has heard both ends the loop. libuv calls once for sends that come together: then nobody ends it. */
#include <stdio.h>
#include <uv.h>
static uv_async_t report;
static int heard;
static void on_report(uv_async_t *a) {
    if (++heard == 2) uv_close((uv_handle_t *)a, NULL);
}
static void first(void *none) { uv_async_send(&report); }
static void second(void *none) { uv_sleep(20); uv_async_send(&report); }
int main(void) {
    uv_thread_t threads[2];
    uv_loop_t *loop = uv_default_loop();
    uv_async_init(loop, &report, on_report);
    uv_thread_create(&threads[0], first, NULL);
    uv_thread_create(&threads[1], second, NULL);
    uv_run(loop, UV_RUN_DEFAULT);
    uv_thread_join(&threads[0]);
    uv_thread_join(&threads[1]);
    printf("heard both\n");
    return 0;
}
