/* Healthy: the loop, and a thread, wait three seconds for a child, which is no matter of the order's clock. */
#include <stdio.h>
#include <stdlib.h>
#include <uv.h>
static uv_sem_t end;
static uv_process_t child;
static void on_exit_of(uv_process_t *p, int64_t status, int sign) {
    uv_close((uv_handle_t *)p, NULL);
    uv_sem_post(&end);
}
static void thread(void *none) { uv_sem_wait(&end); }
int main(void) {
    uv_thread_t th;
    uv_loop_t *l = uv_default_loop();
    char *words[] = {"sleep", "3", NULL};
    uv_process_options_t options = {.file = "sleep", .args = words, .exit_cb = on_exit_of};
    uv_sem_init(&end, 0);
    if (uv_spawn(l, &child, &options)) return 2;
    uv_thread_create(&th, thread, NULL);
    uv_run(l, UV_RUN_DEFAULT);
    uv_thread_join(&th);
    puts("done");
    return 0;
}
