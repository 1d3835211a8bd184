/* Healthy: nothing but a timer, 3,000 times, while a thread waits for its end. */
#include <stdio.h>
#include <uv.h>
static uv_sem_t end;
static uv_timer_t t;
static int count;
static void on_t(uv_timer_t *t) {
    if (++count < 3000) return;
    uv_close((uv_handle_t *)t, NULL);
    uv_sem_post(&end);
}
static void thread(void *none) { uv_sem_wait(&end); }
int main(void) {
    uv_thread_t th;
    uv_loop_t *l = uv_default_loop();
    uv_sem_init(&end, 0);
    uv_timer_init(l, &t);
    uv_timer_start(&t, on_t, 1, 1);
    uv_thread_create(&th, thread, NULL);
    uv_run(l, UV_RUN_DEFAULT);
    uv_thread_join(&th);
    puts("done");
    return 0;
}
