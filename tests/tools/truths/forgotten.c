/* An async handle that nobody closes keeps the loop alive; a signal ends the program. */
#include "truth.h"
#include <signal.h>
static uv_async_t forgotten;
static uv_timer_t report;
static void on_forgotten(uv_async_t *async) {}
static void on_report(uv_timer_t *timer) { works("report", 5); }
int main(void) {
    uv_loop_t *loop = uv_default_loop();
    uv_async_init(loop, &forgotten, on_forgotten);
    uv_timer_init(loop, &report);
    uv_timer_start(&report, on_report, 10, 0);
    setvbuf(stdout, NULL, _IONBF, 0);
    signal(SIGALRM, SIG_DFL);
    ualarm(80000, 0);
    return uv_run(loop, UV_RUN_DEFAULT);
}
