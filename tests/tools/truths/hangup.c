/* A write of eight megabytes to somebody who reads nothing; after 60 ms the program gives up and closes the stream: the write is cancelled. */
#include "truth.h"
static uv_pipe_t line;
static uv_timer_t patience;
static uv_write_t first, second;
static char text[8 << 20];
static uint64_t begun;
static void on_written(uv_write_t *request, int status) {
    if (request == &first) waited("line", "write", begun);
    if (request == &second) printf("second write: %s\n", uv_err_name(status));
}
static void hang_up(void) { uv_close((uv_handle_t *)&line, NULL); }
static void on_patience(uv_timer_t *timer) {
    hang_up();
    uv_close((uv_handle_t *)timer, NULL);
}
int main(void) {
    uv_loop_t *loop = uv_default_loop();
    uv_buf_t bytes = uv_buf_init(text, sizeof text), few = uv_buf_init(text, 5);
    uv_file ends[2];
    uv_pipe(ends, 0, UV_NONBLOCK_PIPE);
    uv_pipe_init(loop, &line, 0);
    uv_pipe_open(&line, ends[1]);
    begun = uv_hrtime();
    uv_write(&first, (uv_stream_t *)&line, &bytes, 1, on_written);
    uv_write(&second, (uv_stream_t *)&line, &few, 1, on_written);
    uv_timer_init(loop, &patience);
    uv_timer_start(&patience, on_patience, 60, 0);
    uv_run(loop, UV_RUN_DEFAULT);
    return 0;
}
