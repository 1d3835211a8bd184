/* A server that nobody asks anything: a timer each 20 ms, for ever. */
#include <uv.h>
static uv_timer_t timer;
static void on_timer(uv_timer_t *t) {}
int main(void) {
    uv_timer_init(uv_default_loop(), &timer);
    uv_timer_start(&timer, on_timer, 20, 20);
    return uv_run(uv_default_loop(), UV_RUN_DEFAULT);
}
