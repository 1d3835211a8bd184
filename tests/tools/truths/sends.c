/* A callback that copies a file within the system. */
#define _GNU_SOURCE
#include <fcntl.h>
#include <sys/sendfile.h>
#include "truth.h"
enum { SIZE = 96 << 20 };
static uv_timer_t backup, beat;
static int beats, from, to;
static void copy_file(void) {
    off_t at = 0;
    while (at < SIZE && sendfile(to, from, &at, (size_t)(SIZE - at)) > 0) continue;
}
static void on_backup(uv_timer_t *timer) {
    uint64_t begin = uv_hrtime(), processor = processor_ns();
    copy_file();
    all_of_it("backup", begin, processor);
    uv_close((uv_handle_t *)timer, NULL);
}
static void on_beat(uv_timer_t *timer) {
    if (++beats == 4) uv_close((uv_handle_t *)timer, NULL);
}
int main(void) {
    uv_loop_t *loop = uv_default_loop();
    char *zeros = calloc(1, SIZE);
    from = open("sends.from", O_RDWR | O_CREAT | O_TRUNC, 0600);
    to = open("sends.to", O_RDWR | O_CREAT | O_TRUNC, 0600);
    unlink("sends.from"), unlink("sends.to");
    if (write(from, zeros, SIZE) != SIZE) return 1;
    free(zeros);
    uv_timer_init(loop, &backup);
    uv_timer_init(loop, &beat);
    uv_timer_start(&backup, on_backup, 20, 0);
    uv_timer_start(&beat, on_beat, 30, 30);
    return uv_run(loop, UV_RUN_DEFAULT);
}
