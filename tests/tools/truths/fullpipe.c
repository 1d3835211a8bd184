/* A callback that writes more than a pipe holds, and whose reader comes late. */
#include "truth.h"
static uv_timer_t report, beat;
static uv_thread_t reader;
static int ends[2];
static void read_late(void *none) {
    char bytes[65536];
    usleep(150000);
    for (ssize_t left = 200000, got; left > 0 && (got = read(ends[0], bytes, sizeof bytes)) > 0;) left -= got;
}
static void send_report(void) {
    char *bytes = calloc(1, 200000);
    write(ends[1], bytes, 200000);
    free(bytes);
}
static void on_report(uv_timer_t *timer) {
    uint64_t begin = uv_hrtime(), processor = processor_ns();
    send_report();
    all_of_it("report", begin, processor);
}
static void on_beat(uv_timer_t *timer) { uv_close((uv_handle_t *)timer, NULL); }
int main(void) {
    pipe(ends);
    uv_timer_init(uv_default_loop(), &report);
    uv_timer_init(uv_default_loop(), &beat);
    uv_timer_start(&report, on_report, 20, 0);
    uv_timer_start(&beat, on_beat, 40, 0);
    uv_thread_create(&reader, read_late, NULL);
    uv_run(uv_default_loop(), UV_RUN_DEFAULT);
    return uv_thread_join(&reader);
}
