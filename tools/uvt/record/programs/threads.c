/* Two threads wake the loop; each wake starts a timer again. */
#include <stdio.h>
#include <unistd.h>
#include <uv.h>

static uv_async_t wakeup;
static uv_timer_t tick, stop;
static uv_prepare_t prepare;
static uv_thread_t threads[2];
static int calls;

static void send_often(void *none) {
    for (int at = 0; at < 12; at++) {
        usleep(1000 * (at % 4));
        uv_async_send(&wakeup);
    }
}

static void on_wakeup(uv_async_t *handle) {
    calls++;
    uv_timer_again(&tick);
}

static void on_tick(uv_timer_t *timer) {
    if (calls >= 10) uv_timer_stop(timer);
}

static void on_prepare(uv_prepare_t *handle) {}

static void on_stop(uv_timer_t *timer) {
    uv_thread_join(&threads[0]);
    uv_thread_join(&threads[1]);
    uv_close((uv_handle_t *)&wakeup, NULL);
    uv_prepare_stop(&prepare);
    uv_timer_stop(&tick);
}

int main(void) {
    uv_loop_t *loop = uv_default_loop();
    uv_async_init(loop, &wakeup, on_wakeup);
    uv_timer_init(loop, &tick);
    uv_timer_start(&tick, on_tick, 3, 5);
    uv_prepare_init(loop, &prepare);
    uv_prepare_start(&prepare, on_prepare);
    uv_unref((uv_handle_t *)&prepare);
    uv_timer_init(loop, &stop);
    uv_timer_start(&stop, on_stop, 60, 0);
    uv_thread_create(&threads[0], send_often, NULL);
    uv_thread_create(&threads[1], send_often, NULL);
    uv_run(loop, UV_RUN_DEFAULT);
    printf("woken %d times\n", calls > 0);
    return 0;
}
