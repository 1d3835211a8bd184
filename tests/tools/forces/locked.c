/* A thread sends while it holds a lock that a callback takes: in an order in which the callback comes before that send, the loop would wait for
 * ever for a thread that waits for its step. */
#include <stdio.h>
#include <uv.h>
static uv_mutex_t lock;
static uv_sem_t locked;
static uv_async_t report;
static uv_timer_t look;
static int value;
static void on_report(uv_async_t *a) { uv_close((uv_handle_t *)a, NULL); }
static void on_look(uv_timer_t *t) {
    uv_mutex_lock(&lock);
    printf("value %d\n", value);
    uv_mutex_unlock(&lock);
    uv_close((uv_handle_t *)t, NULL);
}
static void tell(void *none) {
    uv_mutex_lock(&lock);
    value = 1;
    uv_sem_post(&locked);
    uv_async_send(&report);
    uv_mutex_unlock(&lock);
}
int main(void) {
    uv_thread_t thread;
    uv_loop_t *loop = uv_default_loop();
    uv_mutex_init(&lock);
    uv_sem_init(&locked, 0);
    uv_async_init(loop, &report, on_report);
    uv_timer_init(loop, &look);
    uv_timer_start(&look, on_look, 30, 0);
    uv_thread_create(&thread, tell, NULL);
    uv_sem_wait(&locked);
    uv_run(loop, UV_RUN_DEFAULT);
    uv_thread_join(&thread);
    return 0;
}
