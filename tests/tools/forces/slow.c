/* A callback that computes for four seconds by the system's own clock, which nobody forces. A thread waits for its step meanwhile. */
#define _GNU_SOURCE
#include <stdio.h>
#include <sys/syscall.h>
#include <time.h>
#include <unistd.h>
#include <uv.h>
static uv_async_t report;
static uv_timer_t count;
static int heard;
static long now(void) {
    struct timespec time;
    syscall(SYS_clock_gettime, CLOCK_MONOTONIC, &time);
    return time.tv_sec * 1000 + time.tv_nsec / 1000000;
}
static void on_report(uv_async_t *a) {
    heard = 1;
    uv_close((uv_handle_t *)a, NULL);
}
static void on_count(uv_timer_t *t) {
    for (long begun = now(); now() - begun < 4000;) continue;
    printf("heard %d\n", heard);
    uv_close((uv_handle_t *)t, NULL);
}
static void tell(void *none) { uv_async_send(&report); }
int main(void) {
    uv_thread_t thread;
    uv_loop_t *loop = uv_default_loop();
    uv_async_init(loop, &report, on_report);
    uv_timer_init(loop, &count);
    uv_timer_start(&count, on_count, 30, 0);
    uv_thread_create(&thread, tell, NULL);
    uv_run(loop, UV_RUN_DEFAULT);
    uv_thread_join(&thread);
    return 0;
}
