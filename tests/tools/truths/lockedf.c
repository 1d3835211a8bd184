/* A callback that waits for a record lock of a file, which another process has. */
#include <fcntl.h>
#include <sys/file.h>
#include <sys/wait.h>
#include "truth.h"
static uv_timer_t save, beat;
static int beats;
static int take_lock(void) {
    int file = open("lockedf.lock", O_RDWR | O_CREAT, 0600);
    struct flock all = {.l_type = F_WRLCK};
    fcntl(file, F_SETLKW, &all);
    return file;
}
static void on_save(uv_timer_t *timer) {
    uint64_t begin = uv_hrtime(), processor = processor_ns();
    close(take_lock());
    all_of_it("save", begin, processor);
    uv_close((uv_handle_t *)timer, NULL);
}
static void on_beat(uv_timer_t *timer) {
    if (++beats == 4) uv_close((uv_handle_t *)timer, NULL);
}
int main(void) {
    int ready[2];
    char sign;
    if (pipe(ready) != 0) return 1;
    pid_t child = fork();
    if (child == 0) {
        take_lock();
        if (write(ready[1], "r", 1) != 1) _exit(1);
        usleep(110000);
        _exit(0);
    }
    if (read(ready[0], &sign, 1) != 1) return 1;
    uv_loop_t *loop = uv_default_loop();
    uv_timer_init(loop, &save);
    uv_timer_init(loop, &beat);
    uv_timer_start(&save, on_save, 20, 0);
    uv_timer_start(&beat, on_beat, 30, 30);
    uv_run(loop, UV_RUN_DEFAULT);
    waitpid(child, NULL, 0);
    unlink("lockedf.lock");
    return 0;
}
