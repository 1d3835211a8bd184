/* docs/FIND.md 5: a server that closes with a request under way */
#include <stdio.h>
#include <stdlib.h>
#include <uv.h>
static uv_async_t accept_, stop_, *log_;
static uv_work_t work;
static int begun;
static void hello(uv_work_t *r) { uv_sleep(1); }
static void done(uv_work_t *r, int s) { uv_async_send(log_); }
static void on_accept(uv_async_t *a) { if (!begun++) uv_queue_work(a->loop, &work, hello, done); }
static void on_log(uv_async_t *a) { printf("logged\n"); }
static void freed(uv_handle_t *h) { free(h); }
static void on_stop(uv_async_t *a) {
    uv_close((uv_handle_t *)&accept_, NULL);
    uv_close((uv_handle_t *)log_, freed);
    uv_close((uv_handle_t *)&stop_, NULL);
}
static void outside(void *none) {
    uv_sleep(5);
    uv_async_send(&accept_);
    uv_sleep(20);
    uv_async_send(&stop_);
}
int main(void) {
    uv_thread_t thread;
    uv_loop_t *loop = uv_default_loop();
    log_ = malloc(sizeof *log_);
    uv_async_init(loop, &accept_, on_accept);
    uv_async_init(loop, &stop_, on_stop);
    uv_async_init(loop, log_, on_log);
    uv_thread_create(&thread, outside, NULL);
    uv_run(loop, UV_RUN_DEFAULT);
    uv_thread_join(&thread);
    return 0;
}
