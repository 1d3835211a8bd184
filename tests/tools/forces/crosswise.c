/* Two locks crosswise: the timer's callback takes a, then b; the thread has b, sends, and takes a. */
#include <stdio.h>
#include <uv.h>
static uv_mutex_t a, b;
static uv_async_t say;
static uv_timer_t t;
static void on_t(uv_timer_t *t) { uv_mutex_lock(&a); uv_sleep(1); uv_mutex_lock(&b); uv_mutex_unlock(&b); uv_mutex_unlock(&a); }
static void on_say(uv_async_t *h) { uv_close((uv_handle_t *)h, NULL); }
static void other(void *n) { uv_sleep(20); uv_mutex_lock(&b); uv_async_send(&say); uv_mutex_lock(&a); uv_mutex_unlock(&a); uv_mutex_unlock(&b); }
int main(void) {
    uv_thread_t th;
    uv_loop_t *l = uv_default_loop();
    uv_mutex_init(&a); uv_mutex_init(&b);
    uv_timer_init(l, &t);
    uv_async_init(l, &say, on_say);
    uv_timer_start(&t, on_t, 200, 0);
    uv_thread_create(&th, other, NULL);
    uv_run(l, UV_RUN_DEFAULT);
    uv_thread_join(&th);
    puts("done");
}
