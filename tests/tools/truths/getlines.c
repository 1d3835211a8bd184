/* A callback that reads lines of another program, which answers late. */
#include "truth.h"
static uv_timer_t ask, beat;
static int beats;
static FILE *peer;
static void read_answer(void) {
    char *line = NULL;
    size_t room = 0;
    while (getline(&line, &room, peer) > 0) continue;
    free(line);
}
static void on_ask(uv_timer_t *timer) {
    uint64_t begin = uv_hrtime(), processor = processor_ns();
    read_answer();
    all_of_it("ask", begin, processor);
    uv_close((uv_handle_t *)timer, NULL);
}
static void on_beat(uv_timer_t *timer) {
    if (++beats == 4) uv_close((uv_handle_t *)timer, NULL);
}
int main(void) {
    uv_loop_t *loop = uv_default_loop();
    peer = popen("echo begin; sleep 0.1; echo end", "r");
    uv_timer_init(loop, &ask);
    uv_timer_init(loop, &beat);
    uv_timer_start(&ask, on_ask, 20, 0);
    uv_timer_start(&beat, on_beat, 30, 30);
    uv_run(loop, UV_RUN_DEFAULT);
    pclose(peer);
    return 0;
}
