/* docs/FIND.md 3 */
#include <stdio.h>
#include <uv.h>
static uv_work_t first, second, ping;
static uv_timer_t watchdog;
static int answered;
static void upload(uv_work_t *r) { uv_sleep(3); }
static void uploaded(uv_work_t *r, int s) {}
static void do_ping(uv_work_t *r) {}
static void pinged(uv_work_t *r, int s) { answered = 1; }
static void on_dog(uv_timer_t *t) {
    uv_stop(t->loop);
    uv_close((uv_handle_t *)t, NULL);
}
int main(void) {
    uv_loop_t *loop = uv_default_loop();
    uv_queue_work(loop, &first, upload, uploaded);
    uv_queue_work(loop, &second, upload, uploaded);
    uv_queue_work(loop, &ping, do_ping, pinged);
    uv_timer_init(loop, &watchdog);
    uv_timer_start(&watchdog, on_dog, 100, 0);
    uv_run(loop, UV_RUN_DEFAULT);
    printf("ping was %sanswered\n", answered ? "" : "NOT ");
    return 0;
}
