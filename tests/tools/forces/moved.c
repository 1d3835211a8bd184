/* A request has a pointer into an array, which moves where a message makes it grow before the request is through. */
#include <stdlib.h>
#include <string.h>
#include <uv.h>
static uv_async_t message;
static uv_work_t work;
static int *counts;
static void do_work(uv_work_t *r) { uv_sleep(10); }
static void after(uv_work_t *r, int status) { *(int *)r->data = 1; }
static void on_message(uv_async_t *a) {
    int *larger = malloc(1000 * sizeof *larger);
    memcpy(larger, counts, 2 * sizeof *counts);
    free(counts);
    counts = larger;
    uv_close((uv_handle_t *)a, NULL);
}
static void sender(void *none) { uv_sleep(300); uv_async_send(&message); }
int main(void) {
    uv_loop_t *l = uv_default_loop();
    uv_thread_t thread;
    counts = calloc(2, sizeof *counts);
    work.data = &counts[1];
    uv_async_init(l, &message, on_message);
    uv_queue_work(l, &work, do_work, after);
    uv_thread_create(&thread, sender, NULL);
    uv_run(l, UV_RUN_DEFAULT);
    uv_thread_join(&thread);
    return 0;
}
