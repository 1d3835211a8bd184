/* A callback that reads a pipe by uv_fs_read without a callback, and its writer comes late. */
#include "truth.h"
static uv_timer_t config, beat;
static int ends[2];
static void writer(void *none) {
    usleep(110000);
    if (write(ends[1], "k=v", 3) != 3) abort();
}
static void on_config(uv_timer_t *timer) {
    uint64_t begin = uv_hrtime(), processor = processor_ns();
    char bytes[4];
    uv_buf_t buffer = uv_buf_init(bytes, 3);
    uv_fs_t request;
    uv_fs_read(timer->loop, &request, ends[0], &buffer, 1, -1, NULL);
    uv_fs_req_cleanup(&request);
    all_of_it("config", begin, processor);
}
static void on_beat(uv_timer_t *timer) { uv_close((uv_handle_t *)timer, NULL); }
int main(void) {
    uv_loop_t *loop = uv_default_loop();
    uv_thread_t thread;
    if (pipe(ends) != 0) return 1;
    uv_timer_init(loop, &config);
    uv_timer_init(loop, &beat);
    uv_timer_start(&config, on_config, 20, 0);
    uv_timer_start(&beat, on_beat, 40, 0);
    uv_thread_create(&thread, writer, NULL);
    uv_run(loop, UV_RUN_DEFAULT);
    uv_thread_join(&thread);
    return 0;
}
