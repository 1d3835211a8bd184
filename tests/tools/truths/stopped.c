/* The whole process is stopped for 100 ms by a child, while the loop waits. */
#include <signal.h>
#include "truth.h"
static uv_timer_t beat;
static void on_beat(uv_timer_t *timer) {
    static int beats;
    if (++beats == 3) uv_close((uv_handle_t *)timer, NULL);
}
int main(void) {
    pid_t self = getpid();
    if (fork() == 0) {
        usleep(100000);
        kill(self, SIGSTOP);
        usleep(150000);
        kill(self, SIGCONT);
        _exit(0);
    }
    uv_loop_t *loop = uv_default_loop();
    uv_timer_init(loop, &beat);
    uv_timer_start(&beat, on_beat, 70, 70);
    uv_run(loop, UV_RUN_DEFAULT);
    return 0;
}
