/* Another thread sends once, and then four times in a row: each is one call. (A loop that gets no processor meanwhile has one for all.) */
#include "truth.h"
static uv_async_t news;
static volatile int calls, sent;
static void on_news(uv_async_t *async) {
    works("news", 20);
    if (++calls == 2 || sent == 5) uv_close((uv_handle_t *)async, NULL);
}
static void sender(void *none) {
    usleep(10000);
    sent++, uv_async_send(&news);
    usleep(5000);
    for (int at = 0; at < 4; at++) {
        sent++, uv_async_send(&news);
        usleep(2000);
    }
}
int main(void) {
    uv_thread_t thread;
    uv_async_init(uv_default_loop(), &news, on_news);
    uv_thread_create(&thread, sender, NULL);
    uv_run(uv_default_loop(), UV_RUN_DEFAULT);
    return uv_thread_join(&thread);
}
