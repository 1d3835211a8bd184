/* Healthy: an idle handle keeps the loop awake until a timer stops it. */
#include <stdio.h>
#include <uv.h>
static uv_idle_t spin; static uv_timer_t t; static long turns;
static void on_spin(uv_idle_t *h) { turns++; }
static void on_t(uv_timer_t *h) { uv_close((uv_handle_t *)&spin, NULL); uv_close((uv_handle_t *)h, NULL); }
int main(void) {
    uv_loop_t *l = uv_default_loop();
    uv_idle_init(l, &spin); uv_idle_start(&spin, on_spin);
    uv_timer_init(l, &t); uv_timer_start(&t, on_t, 200, 0);
    uv_run(l, UV_RUN_DEFAULT);
    puts("done");
}
