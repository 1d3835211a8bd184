/* Four jobs wait for what a fifth one has: where the message that asks for the four comes first, they have all workers, and the fifth one none. */
#include <uv.h>
static uv_sem_t ready;
static uv_async_t message;
static uv_timer_t begins;
static uv_work_t four[4], fifth;
static void waits(uv_work_t *r) { uv_sem_wait(&ready); }
static void makes(uv_work_t *r) {
    for (int it = 0; it < 4; it++) uv_sem_post(&ready);
}
static void after(uv_work_t *r, int status) {}
static void on_message(uv_async_t *a) {
    for (int it = 0; it < 4; it++) uv_queue_work(a->loop, &four[it], waits, after);
    uv_close((uv_handle_t *)a, NULL);
}
static void on_begins(uv_timer_t *t) {
    uv_queue_work(t->loop, &fifth, makes, after);
    uv_close((uv_handle_t *)t, NULL);
}
static void sender(void *none) { uv_sleep(300); uv_async_send(&message); }
int main(void) {
    uv_loop_t *l = uv_default_loop();
    uv_thread_t thread;
    uv_sem_init(&ready, 0);
    uv_async_init(l, &message, on_message);
    uv_timer_init(l, &begins);
    uv_timer_start(&begins, on_begins, 50, 0);
    uv_thread_create(&thread, sender, NULL);
    uv_run(l, UV_RUN_DEFAULT);
    uv_thread_join(&thread);
    return 0;
}
