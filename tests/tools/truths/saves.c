/* A callback that writes a file and waits until the disk has it. */
#include "truth.h"
#include <fcntl.h>
static uv_timer_t save, beat;
enum { SIZE = 64 << 20 };
static char *index_of_all;
static void save_index(void) {
    char name[] = "/tmp/saves.XXXXXX";
    int file = mkstemp(name);
    unlink(name);
    write(file, index_of_all, SIZE);
    fsync(file);
    close(file);
}
static void on_save(uv_timer_t *timer) {
    uint64_t begin = uv_hrtime(), processor = processor_ns();
    save_index();
    all_of_it("save", begin, processor);
}
static void on_beat(uv_timer_t *timer) { uv_close((uv_handle_t *)timer, NULL); }
int main(void) {
    index_of_all = malloc(SIZE);
    memset(index_of_all, 1, SIZE);
    uv_timer_init(uv_default_loop(), &save);
    uv_timer_init(uv_default_loop(), &beat);
    uv_timer_start(&save, on_save, 20, 0);
    uv_timer_start(&beat, on_beat, 40, 0);
    return uv_run(uv_default_loop(), UV_RUN_DEFAULT);
}
