/* Callbacks that wait by the functions of C11. */
#include <threads.h>
#include "truth.h"
static uv_timer_t merge, rest, beat;
static mtx_t table;
static uv_sem_t has_it;
static int beats;
static int compact(void *none) {
    (void)none;
    mtx_lock(&table);
    uv_sem_post(&has_it);
    thrd_sleep(&(struct timespec){.tv_nsec = 90000000}, NULL);
    mtx_unlock(&table);
    return 0;
}
static void on_merge(uv_timer_t *timer) {
    uint64_t begin = uv_hrtime(), processor = processor_ns();
    mtx_lock(&table);
    mtx_unlock(&table);
    all_of_it("merge", begin, processor);
    uv_close((uv_handle_t *)timer, NULL);
}
static void on_rest(uv_timer_t *timer) {
    uint64_t begin = uv_hrtime(), processor = processor_ns();
    thrd_sleep(&(struct timespec){.tv_nsec = 40000000}, NULL);
    all_of_it("rest", begin, processor);
    uv_close((uv_handle_t *)timer, NULL);
}
static void on_beat(uv_timer_t *timer) {
    if (++beats == 6) uv_close((uv_handle_t *)timer, NULL);
}
int main(void) {
    uv_loop_t *loop = uv_default_loop();
    thrd_t thread;
    mtx_init(&table, mtx_plain);
    uv_sem_init(&has_it, 0);
    uv_timer_init(loop, &merge);
    uv_timer_init(loop, &rest);
    uv_timer_init(loop, &beat);
    uv_timer_start(&merge, on_merge, 20, 0);
    uv_timer_start(&rest, on_rest, 120, 0);
    uv_timer_start(&beat, on_beat, 30, 30);
    thrd_create(&thread, compact, NULL);
    uv_sem_wait(&has_it);
    uv_run(loop, UV_RUN_DEFAULT);
    thrd_join(thread, NULL);
    return 0;
}
