/* A descriptor that is always writable, and polled for that; a report each 10 ms takes 3 ms. */
#include <sys/socket.h>
#include "truth.h"
static uv_poll_t peer;
static uv_timer_t report;
static int reports, calls;
static void on_peer(uv_poll_t *poll, int status, int events) {
    uint64_t begin = uv_hrtime();
    (void)poll, (void)status, (void)events;
    while (uv_hrtime() - begin < 50000) continue;
    calls++;
}
static void on_report(uv_timer_t *timer) {
    works("report", 3);
    if (++reports < 5) return;
    printf("peer was called %d times\n", calls);
    uv_close((uv_handle_t *)timer, NULL);
    uv_close((uv_handle_t *)&peer, NULL);
}
int main(void) {
    uv_loop_t *loop = uv_default_loop();
    int ends[2];
    if (socketpair(AF_UNIX, SOCK_STREAM, 0, ends) != 0) return 1;
    uv_poll_init(loop, &peer, ends[0]);
    uv_poll_start(&peer, UV_WRITABLE, on_peer);
    uv_timer_init(loop, &report);
    uv_timer_start(&report, on_report, 10, 10);
    return uv_run(loop, UV_RUN_DEFAULT);
}
