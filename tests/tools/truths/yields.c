/* A callback that gives its processor away until another thread has set a flag. */
#include <pthread.h>
#include <sched.h>
#include <stdatomic.h>
#include "truth.h"
static uv_timer_t turn, beat;
static atomic_int flag;
static int beats;
static void *set_it(void *none) {
    usleep(90000);
    atomic_store(&flag, 1);
    return none;
}
static void await_flag(void) {
    while (!atomic_load(&flag)) sched_yield();
}
static void on_turn(uv_timer_t *timer) {
    uint64_t begin = uv_hrtime(), processor = processor_ns();
    await_flag();
    all_of_it("turn", begin, processor);
    uv_close((uv_handle_t *)timer, NULL);
}
static void on_beat(uv_timer_t *timer) {
    if (++beats == 4) uv_close((uv_handle_t *)timer, NULL);
}
int main(void) {
    uv_loop_t *loop = uv_default_loop();
    pthread_t thread;
    uv_timer_init(loop, &turn);
    uv_timer_init(loop, &beat);
    uv_timer_start(&turn, on_turn, 20, 0);
    uv_timer_start(&beat, on_beat, 30, 30);
    pthread_create(&thread, NULL, set_it, NULL);
    uv_run(loop, UV_RUN_DEFAULT);
    pthread_join(thread, NULL);
    return 0;
}
