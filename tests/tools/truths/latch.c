/* A callback that waits for a mutex of the C library, which a thread has. */
#include <pthread.h>
#include "truth.h"
static uv_timer_t report, beat;
static pthread_mutex_t table = PTHREAD_MUTEX_INITIALIZER;
static uv_sem_t has_it;
static int beats;
static void compact(void *none) {
    pthread_mutex_lock(&table);
    uv_sem_post(&has_it);
    usleep(90000);
    pthread_mutex_unlock(&table);
}
static void on_report(uv_timer_t *timer) {
    uint64_t begin = uv_hrtime(), processor = processor_ns();
    pthread_mutex_lock(&table);
    pthread_mutex_unlock(&table);
    all_of_it("report", begin, processor);
    uv_close((uv_handle_t *)timer, NULL);
}
static void on_beat(uv_timer_t *timer) {
    if (++beats == 4) uv_close((uv_handle_t *)timer, NULL);
}
int main(void) {
    uv_loop_t *loop = uv_default_loop();
    uv_thread_t thread;
    uv_sem_init(&has_it, 0);
    uv_timer_init(loop, &report);
    uv_timer_init(loop, &beat);
    uv_timer_start(&report, on_report, 20, 0);
    uv_timer_start(&beat, on_beat, 30, 30);
    uv_thread_create(&thread, compact, NULL);
    uv_sem_wait(&has_it);
    uv_run(loop, UV_RUN_DEFAULT);
    uv_thread_join(&thread);
    return 0;
}
