/* Two rare orders at once: the answer has to come behind its time limit, and the message before the answer. */
#include <stdlib.h>
#include <unistd.h>
#include <uv.h>
static uv_async_t message;
static uv_timer_t limit;
static uv_work_t answer, logged;
static char *state;
static int gave_up, told, left = 2;
static void quick(uv_work_t *r) { usleep(1000); }
static void slow(uv_work_t *r) { usleep(100000); }
static void end(void) {
    if (--left) return;
    uv_close((uv_handle_t *)&message, NULL);
    if (!uv_is_closing((uv_handle_t *)&limit)) uv_close((uv_handle_t *)&limit, NULL);
}
static void on_limit(uv_timer_t *t) { gave_up = 1; uv_close((uv_handle_t *)t, NULL); }
static void on_message(uv_async_t *a) {
    told = 1;
    if (gave_up) { free(state); state = NULL; }
}
static void on_answer(uv_work_t *r, int s) {
    if (gave_up && told) state[0] = 'a';     /* (freed, where the message came between the two) */
    end();
}
static void on_log(uv_work_t *r, int s) { end(); }
static void sender(void *none) { usleep(300000); uv_async_send(&message); }
int main(void) {
    uv_thread_t th;
    uv_loop_t *l = uv_default_loop();
    state = malloc(8);
    uv_async_init(l, &message, on_message);
    uv_timer_init(l, &limit);
    uv_timer_start(&limit, on_limit, 600, 0);
    uv_queue_work(l, &answer, quick, on_answer);
    uv_queue_work(l, &logged, slow, on_log);
    uv_thread_create(&th, sender, NULL);
    uv_run(l, UV_RUN_DEFAULT);
    uv_thread_join(&th);
    free(state);
    return 0;
}
