/* A small write is done at once, and its callback comes late: the callback of another timer works in between. */
#include "truth.h"
static uv_pipe_t out;
static uv_timer_t ask, hog;
static uv_write_t write_it;
static uint64_t begun;
static void on_written(uv_write_t *request, int status) {
    waited("out", "write", begun);
    uv_close((uv_handle_t *)&out, NULL);
}
static void on_ask(uv_timer_t *timer) {
    uv_buf_t bytes = uv_buf_init("hello", 5);
    begun = uv_hrtime();
    uv_write(&write_it, (uv_stream_t *)&out, &bytes, 1, on_written);
}
static void on_hog(uv_timer_t *timer) { works("hog", 50); }
int main(void) {
    uv_loop_t *loop = uv_default_loop();
    uv_file ends[2];
    uv_pipe(ends, 0, UV_NONBLOCK_PIPE);
    uv_pipe_init(loop, &out, 0);
    uv_pipe_open(&out, ends[1]);
    uv_timer_init(loop, &ask);
    uv_timer_init(loop, &hog);
    uv_timer_start(&ask, on_ask, 10, 0);
    uv_timer_start(&hog, on_hog, 10, 0);
    uv_run(loop, UV_RUN_DEFAULT);
    return 0;
}
