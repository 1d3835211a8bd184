/* A timer says who it is, which its configuration tells, as one thinks, long before: else it says another thing, and nothing is amiss otherwise. */
#include <stdio.h>
#include <uv.h>
static uv_work_t configuration;
static uv_timer_t greets;
static const char *name = "nobody";
static void read_it(uv_work_t *r) { uv_sleep(10); }
static void was_read(uv_work_t *r, int status) { name = "server 1"; }
static void on_greets(uv_timer_t *t) {
    printf("this is %s\n", name);
    uv_close((uv_handle_t *)t, NULL);
}
int main(void) {
    uv_loop_t *l = uv_default_loop();
    uv_timer_init(l, &greets);
    uv_timer_start(&greets, on_greets, 300, 0);
    uv_queue_work(l, &configuration, read_it, was_read);
    return uv_run(l, UV_RUN_DEFAULT);
}
