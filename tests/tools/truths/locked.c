/* A callback that waits 80 ms for a lock that a thread has. */
#include "truth.h"
static uv_timer_t report, beat;
static uv_mutex_t lock;
static uv_thread_t thread;
static uv_sem_t has_it;
static void hold(void *none) {
    uv_mutex_lock(&lock);
    uv_sem_post(&has_it);
    usleep(100000);
    uv_mutex_unlock(&lock);
}
static void on_report(uv_timer_t *timer) {
    uint64_t begin = uv_hrtime(), processor = processor_ns();
    uv_mutex_lock(&lock);
    uv_mutex_unlock(&lock);
    all_of_it("report", begin, processor);
}
static void on_beat(uv_timer_t *timer) { uv_close((uv_handle_t *)timer, NULL); }
int main(void) {
    uv_loop_t *loop = uv_default_loop();
    uv_mutex_init(&lock);
    uv_sem_init(&has_it, 0);
    uv_timer_init(loop, &report);
    uv_timer_init(loop, &beat);
    uv_timer_start(&report, on_report, 20, 0);
    uv_timer_start(&beat, on_beat, 40, 0);
    uv_thread_create(&thread, hold, NULL);
    uv_sem_wait(&has_it);
    uv_run(loop, UV_RUN_DEFAULT);
    uv_thread_join(&thread);
    return 0;
}
