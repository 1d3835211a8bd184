/* A thread of the program's own sends. */
#include "truth.h"
static uv_async_t ready;
static uv_thread_t thread;
static void produce(void *none) {
    usleep(20000);
    uv_async_send(&ready);
}
static void on_ready(uv_async_t *handle) { uv_close((uv_handle_t *)handle, NULL); }
int main(void) {
    uv_loop_t *loop = uv_default_loop();
    uv_async_init(loop, &ready, on_ready);
    uv_thread_create(&thread, produce, NULL);
    uv_run(loop, UV_RUN_DEFAULT);
    uv_thread_join(&thread);
    return 0;
}
