/* Two locks crosswise: the timer's callback takes a, then b; the work of a request takes b, then a. */
#include <stdio.h>
#include <uv.h>
static uv_mutex_t a, b;
static uv_timer_t t;
static uv_work_t work;
static void on_t(uv_timer_t *t) {
    uv_mutex_lock(&a);
    uv_mutex_lock(&b);
    uv_mutex_unlock(&b);
    uv_mutex_unlock(&a);
    uv_close((uv_handle_t *)t, NULL);
}
static void works(uv_work_t *r) {
    uv_mutex_lock(&b);
    uv_mutex_lock(&a);
    uv_mutex_unlock(&a);
    uv_mutex_unlock(&b);
}
static void done(uv_work_t *r, int s) {}
int main(void) {
    uv_loop_t *l = uv_default_loop();
    uv_mutex_init(&a);
    uv_mutex_init(&b);
    uv_timer_init(l, &t);
    uv_timer_start(&t, on_t, 200, 0);
    uv_queue_work(l, &work, works, done);
    uv_run(l, UV_RUN_DEFAULT);
    puts("done");
    return 0;
}
