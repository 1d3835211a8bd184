/* A timer's callback gives the session back, and the check handle makes the next one. Who is called between them has none: that takes a send
 * in the few microseconds between the timers and a poll that doesn't wait. */
#include <stdio.h>
#include <stdlib.h>
#include <uv.h>
struct session { int messages; };
static struct session *session;
static uv_async_t message;
static uv_timer_t renew, last;
static uv_idle_t idle;
static uv_check_t check;
static void on_message(uv_async_t *a) { printf("message %d\n", ++session->messages); }
static void on_check(uv_check_t *c) {
    session = calloc(1, sizeof *session);
    uv_check_stop(c);
    uv_idle_stop(&idle);
}
static void on_idle(uv_idle_t *i) {}
static void on_renew(uv_timer_t *t) {
    free(session);
    uv_idle_start(&idle, on_idle);
    uv_check_start(&check, on_check);
}
static void on_last(uv_timer_t *t) {
    uv_close((uv_handle_t *)&message, NULL);
    uv_close((uv_handle_t *)&renew, NULL);
    uv_close((uv_handle_t *)&idle, NULL);
    uv_close((uv_handle_t *)&check, NULL);
    uv_close((uv_handle_t *)t, NULL);
}
static void report(void *none) { uv_sleep(5); uv_async_send(&message); }
int main(void) {
    uv_thread_t thread;
    uv_loop_t *loop = uv_default_loop();
    session = calloc(1, sizeof *session);
    uv_async_init(loop, &message, on_message);
    uv_timer_init(loop, &renew);
    uv_timer_init(loop, &last);
    uv_idle_init(loop, &idle);
    uv_check_init(loop, &check);
    uv_timer_start(&renew, on_renew, 20, 0);
    uv_timer_start(&last, on_last, 60, 0);
    uv_thread_create(&thread, report, NULL);
    uv_run(loop, UV_RUN_DEFAULT);
    uv_thread_join(&thread);
    free(session);
    return 0;
}
