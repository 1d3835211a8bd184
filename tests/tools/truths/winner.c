/* The first of two jobs that is through sends; the second one closes. So there is one send, by the after callback of `quick`. */
#include "truth.h"
static uv_work_t quick, late;
static uv_async_t news;
static void work_quick(uv_work_t *request) { works("quick", 5); }
static void work_late(uv_work_t *request) { works("late", 30); }
static void on_news(uv_async_t *async) {}
static void done(uv_work_t *request, int status) {
    if (request == &quick) uv_async_send(&news);
    else uv_close((uv_handle_t *)&news, NULL);
}
int main(void) {
    uv_loop_t *loop = uv_default_loop();
    uv_async_init(loop, &news, on_news);
    uv_queue_work(loop, &quick, work_quick, done);
    uv_queue_work(loop, &late, work_late, done);
    return uv_run(loop, UV_RUN_DEFAULT);
}
