/* A callback that spins for a lock, which another thread has. */
#include <pthread.h>
#include "truth.h"
static uv_timer_t rates, beat;
static pthread_spinlock_t lock;
static uv_sem_t has_it;
static int beats;
static void *refresh(void *none) {
    pthread_spin_lock(&lock);
    uv_sem_post(&has_it);
    usleep(90000);
    pthread_spin_unlock(&lock);
    return none;
}
static void read_rates(void) {
    pthread_spin_lock(&lock);
    pthread_spin_unlock(&lock);
}
static void on_rates(uv_timer_t *timer) {
    uint64_t begin = uv_hrtime(), processor = processor_ns();
    read_rates();
    all_of_it("rates", begin, processor);
    uv_close((uv_handle_t *)timer, NULL);
}
static void on_beat(uv_timer_t *timer) {
    if (++beats == 4) uv_close((uv_handle_t *)timer, NULL);
}
int main(void) {
    uv_loop_t *loop = uv_default_loop();
    pthread_t thread;
    pthread_spin_init(&lock, 0);
    uv_sem_init(&has_it, 0);
    uv_timer_init(loop, &rates);
    uv_timer_init(loop, &beat);
    uv_timer_start(&rates, on_rates, 20, 0);
    uv_timer_start(&beat, on_beat, 30, 30);
    pthread_create(&thread, NULL, refresh, NULL);
    uv_sem_wait(&has_it);
    uv_run(loop, UV_RUN_DEFAULT);
    pthread_join(thread, NULL);
    return 0;
}
