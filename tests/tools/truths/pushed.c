/* An idle timeout that each request pushes away: it is started again twenty times before it is due, and then it comes. */
#include "truth.h"
static uv_timer_t inactivity, request;
static int requests;
static void on_inactivity(uv_timer_t *timer) {
    works("inactivity", 5);
    uv_close((uv_handle_t *)timer, NULL);
}
static void on_request(uv_timer_t *timer) {
    uv_timer_start(&inactivity, on_inactivity, 40, 0);
    if (++requests == 20) uv_close((uv_handle_t *)timer, NULL);
}
int main(void) {
    uv_loop_t *loop = uv_default_loop();
    uv_timer_init(loop, &inactivity);
    uv_timer_init(loop, &request);
    uv_timer_start(&inactivity, on_inactivity, 40, 0);
    uv_timer_start(&request, on_request, 5, 5);
    return uv_run(loop, UV_RUN_DEFAULT);
}
