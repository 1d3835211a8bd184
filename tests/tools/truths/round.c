/* A callback that waits at a barrier for a thread. */
#include "truth.h"
static uv_timer_t turn, beat;
static uv_thread_t thread;
static uv_barrier_t all;
static void party(void *none) {
    usleep(120000);
    uv_barrier_wait(&all);
}
static void join_round(void) { uv_barrier_wait(&all); }
static void on_turn(uv_timer_t *timer) {
    uint64_t begin = uv_hrtime(), processor = processor_ns();
    join_round();
    all_of_it("turn", begin, processor);
}
static void on_beat(uv_timer_t *timer) { uv_close((uv_handle_t *)timer, NULL); }
int main(void) {
    uv_barrier_init(&all, 2);
    uv_timer_init(uv_default_loop(), &turn);
    uv_timer_init(uv_default_loop(), &beat);
    uv_timer_start(&turn, on_turn, 20, 0);
    uv_timer_start(&beat, on_beat, 40, 0);
    uv_thread_create(&thread, party, NULL);
    uv_run(uv_default_loop(), UV_RUN_DEFAULT);
    return uv_thread_join(&thread);
}
