/* A program whose loop begins after a second and a half, as where others have the processors. */
#include <unistd.h>
#include <uv.h>
static uv_timer_t timer;
static void on_timer(uv_timer_t *t) {}
int main(void) {
    uv_timer_init(uv_default_loop(), &timer);
    usleep(1500000);
    uv_timer_start(&timer, on_timer, 1, 0);
    return uv_run(uv_default_loop(), UV_RUN_DEFAULT);
}
