/* A callback that reads what another program says. */
#include "truth.h"
static uv_timer_t hook, beat;
static void run_hook(void) {
    char line[64];
    FILE *said = popen("sleep 0.12; echo done", "r");
    while (fgets(line, sizeof line, said)) continue;
    pclose(said);
}
static void on_hook(uv_timer_t *timer) {
    uint64_t begin = uv_hrtime(), processor = processor_ns();
    run_hook();
    all_of_it("hook", begin, processor);
}
static void on_beat(uv_timer_t *timer) { uv_close((uv_handle_t *)timer, NULL); }
int main(void) {
    uv_timer_init(uv_default_loop(), &hook);
    uv_timer_init(uv_default_loop(), &beat);
    uv_timer_start(&hook, on_hook, 20, 0);
    uv_timer_start(&beat, on_beat, 40, 0);
    return uv_run(uv_default_loop(), UV_RUN_DEFAULT);
}
