/* Healthy: a thread waits up to 50 ms, again and again, for a message's answer, and looks at the clock; the loop has no timer. */
#include <stdio.h>
#include <uv.h>
static uv_mutex_t m; static uv_cond_t c; static int answered, rounds;
static uv_async_t ask, stop;
static void on_ask(uv_async_t *h) { uv_mutex_lock(&m); answered++; uv_cond_signal(&c); uv_mutex_unlock(&m); }
static void on_stop(uv_async_t *h) { uv_close((uv_handle_t *)&ask, NULL); uv_close((uv_handle_t *)&stop, NULL); }
static void thread(void *n) {
    for (int i = 0; i < 5; i++) {
        uint64_t until = uv_hrtime() + 300000000;
        uv_mutex_lock(&m);
        int before = answered;
        if (i % 2) uv_async_send(&ask);
        while (answered == before && uv_hrtime() < until) uv_cond_timedwait(&c, &m, 50000000), rounds++;
        uv_mutex_unlock(&m);
    }
    uv_async_send(&stop);
}
int main(void) {
    uv_thread_t th; uv_loop_t *l = uv_default_loop();
    uv_mutex_init(&m); uv_cond_init(&c);
    uv_async_init(l, &ask, on_ask); uv_async_init(l, &stop, on_stop);
    uv_thread_create(&th, thread, NULL);
    uv_run(l, UV_RUN_DEFAULT);
    uv_thread_join(&th);
    puts("done");
}
