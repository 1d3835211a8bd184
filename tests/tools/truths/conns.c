/* Five connections in memory of their own, each with an idle timer of 50 ms. The request of the third one takes 90 ms. */
#include "truth.h"
typedef struct {
    int number;
    uv_timer_t idle;
    uv_timer_t request;
} Connection;
static void on_closed(uv_handle_t *handle) {}
static void on_idle(uv_timer_t *timer) {
    Connection *it = timer->data;
    uv_close((uv_handle_t *)&it->idle, on_closed);
    uv_close((uv_handle_t *)&it->request, on_closed);
}
static void on_request(uv_timer_t *timer) {
    Connection *it = timer->data;
    if (it->number == 3) works("request 3", 90);
}
int main(void) {
    uv_loop_t *loop = uv_default_loop();
    for (int number = 1; number <= 5; number++) {
        Connection *it = calloc(1, sizeof *it);
        it->number = number;
        it->idle.data = it->request.data = it;
        uv_timer_init(loop, &it->idle);
        uv_timer_init(loop, &it->request);
        uv_timer_start(&it->idle, on_idle, 50, 0);
        uv_timer_start(&it->request, on_request, 10 * number, 0);
    }
    return uv_run(loop, UV_RUN_DEFAULT);
}
