/* The loop joins a thread that waits for a callback of the loop: only where the timer comes before the message. */
#include <stdio.h>
#include <uv.h>
static uv_sem_t heard;
static uv_async_t say;
static uv_timer_t end;
static uv_thread_t th;
static void on_say(uv_async_t *h) { uv_sem_post(&heard); }
static void thread(void *n) { uv_sleep(20); uv_async_send(&say); uv_sem_wait(&heard); }
static void on_end(uv_timer_t *t) { uv_thread_join(&th); uv_close((uv_handle_t *)&say, NULL); uv_close((uv_handle_t *)t, NULL); }
int main(void) {
    uv_loop_t *l = uv_default_loop();
    uv_sem_init(&heard, 0);
    uv_async_init(l, &say, on_say);
    uv_timer_init(l, &end);
    uv_timer_start(&end, on_end, 200, 0);
    uv_thread_create(&th, thread, NULL);
    uv_run(l, UV_RUN_DEFAULT);
    puts("done");
}
