/* A callback that waits for a semaphore, which a thread posts late. */
#include <pthread.h>
#include <semaphore.h>
#include "truth.h"
static uv_timer_t load, beat;
static sem_t ready;
static int beats;
static void *prepare(void *none) {
    usleep(90000);
    sem_post(&ready);
    return none;
}
static void fetch(void) {
    sem_wait(&ready);
}
static void on_load(uv_timer_t *timer) {
    uint64_t begin = uv_hrtime(), processor = processor_ns();
    fetch();
    all_of_it("load", begin, processor);
    uv_close((uv_handle_t *)timer, NULL);
}
static void on_beat(uv_timer_t *timer) {
    if (++beats == 4) uv_close((uv_handle_t *)timer, NULL);
}
int main(void) {
    uv_loop_t *loop = uv_default_loop();
    pthread_t thread;
    sem_init(&ready, 0, 0);
    uv_timer_init(loop, &load);
    uv_timer_init(loop, &beat);
    uv_timer_start(&load, on_load, 20, 0);
    uv_timer_start(&beat, on_beat, 30, 30);
    pthread_create(&thread, NULL, prepare, NULL);
    uv_run(loop, UV_RUN_DEFAULT);
    pthread_join(thread, NULL);
    return 0;
}
