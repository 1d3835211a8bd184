/* Two handles that close: libuv calls that of a watched file only when it has looked at the file. */
#include <uv.h>

static uv_fs_poll_t file;
static uv_timer_t timer;

static void on_change(uv_fs_poll_t *handle, int status, const uv_stat_t *before, const uv_stat_t *now) {}

static void on_closed(uv_handle_t *handle) {}

int main(void) {
    uv_loop_t *loop = uv_default_loop();
    uv_timer_init(loop, &timer);
    uv_fs_poll_init(loop, &file);
    uv_fs_poll_start(&file, on_change, "/", 1000);
    uv_close((uv_handle_t *)&timer, on_closed);
    uv_close((uv_handle_t *)&file, on_closed);
    uv_run(loop, UV_RUN_DEFAULT);
    return 0;
}
