/* A callback that waits until nobody writes. */
#include "truth.h"
static uv_timer_t look, beat;
static uv_thread_t writer;
static uv_rwlock_t lock;
static uv_sem_t writes;
static void rewrite(void *none) {
    uv_rwlock_wrlock(&lock);
    uv_sem_post(&writes);
    usleep(110000);
    uv_rwlock_wrunlock(&lock);
}
static void look_up(void) {
    uv_rwlock_rdlock(&lock);
    uv_rwlock_rdunlock(&lock);
}
static void on_look(uv_timer_t *timer) {
    uint64_t begin = uv_hrtime(), processor = processor_ns();
    look_up();
    all_of_it("look", begin, processor);
}
static void on_beat(uv_timer_t *timer) { uv_close((uv_handle_t *)timer, NULL); }
int main(void) {
    uv_rwlock_init(&lock);
    uv_sem_init(&writes, 0);
    uv_timer_init(uv_default_loop(), &look);
    uv_timer_init(uv_default_loop(), &beat);
    uv_timer_start(&look, on_look, 20, 0);
    uv_timer_start(&beat, on_beat, 40, 0);
    uv_thread_create(&writer, rewrite, NULL);
    uv_sem_wait(&writes);
    uv_run(uv_default_loop(), UV_RUN_DEFAULT);
    return uv_thread_join(&writer);
}
