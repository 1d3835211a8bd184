/* A callback that prints to somebody who reads slowly: the pipe is full. */
#include <sys/wait.h>
#include "truth.h"
static uv_timer_t audit, beat;
static FILE *out;
static int beats;
static void tell_all(void) {
    for (int it = 0; it < 2000; it++) fprintf(out, "%06d an order was taken, and its price is %d\n", it, it * 7);
}
static void on_audit(uv_timer_t *timer) {
    uint64_t begin = uv_hrtime(), processor = processor_ns();
    tell_all();
    all_of_it("audit", begin, processor);
    uv_close((uv_handle_t *)timer, NULL);
}
static void on_beat(uv_timer_t *timer) {
    if (++beats == 4) uv_close((uv_handle_t *)timer, NULL);
}
int main(void) {
    int ends[2];
    if (pipe(ends) != 0) return 1;
    pid_t child = fork();
    if (child == 0) {
        static char bytes[1 << 20];
        close(ends[1]);
        usleep(100000);
        while (read(ends[0], bytes, sizeof bytes) > 0) continue;
        _exit(0);
    }
    close(ends[0]);
    out = fdopen(ends[1], "w");
    uv_loop_t *loop = uv_default_loop();
    uv_timer_init(loop, &audit);
    uv_timer_init(loop, &beat);
    uv_timer_start(&audit, on_audit, 20, 0);
    uv_timer_start(&beat, on_beat, 30, 30);
    uv_run(loop, UV_RUN_DEFAULT);
    fclose(out);
    waitpid(child, NULL, 0);
    return 0;
}
