/* A check handle whose callback waits for a condition that another thread signals late. */
#include <pthread.h>
#include "truth.h"
static uv_timer_t beat;
static uv_check_t gate;
static pthread_mutex_t lock = PTHREAD_MUTEX_INITIALIZER;
static pthread_cond_t changed = PTHREAD_COND_INITIALIZER;
static int is_ready, beats;
static void *make_ready(void *none) {
    usleep(80000);
    pthread_mutex_lock(&lock);
    is_ready = 1;
    pthread_cond_signal(&changed);
    pthread_mutex_unlock(&lock);
    return none;
}
static void wait_ready(void) {
    pthread_mutex_lock(&lock);
    while (!is_ready) pthread_cond_wait(&changed, &lock);
    pthread_mutex_unlock(&lock);
}
static void on_gate(uv_check_t *check) {
    uint64_t begin = uv_hrtime(), processor = processor_ns();
    wait_ready();
    all_of_it("gate", begin, processor);
    uv_close((uv_handle_t *)check, NULL);
}
static void on_beat(uv_timer_t *timer) {
    if (++beats == 3) uv_close((uv_handle_t *)timer, NULL);
}
int main(void) {
    uv_loop_t *loop = uv_default_loop();
    pthread_t thread;
    uv_timer_init(loop, &beat);
    uv_check_init(loop, &gate);
    uv_timer_start(&beat, on_beat, 20, 20);
    uv_check_start(&gate, on_gate);
    pthread_create(&thread, NULL, make_ready, NULL);
    uv_run(loop, UV_RUN_DEFAULT);
    pthread_join(thread, NULL);
    return 0;
}
