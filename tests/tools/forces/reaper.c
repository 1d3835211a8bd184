/* A connection that nobody has asked for in a while is given back, though an answer may be under way. */
#include <stdlib.h>
#include <uv.h>
struct connection { uint64_t used; int answers; };
static struct connection *connection;
static uv_work_t first, second;
static uv_timer_t reaper;
static void ask(uv_work_t *r) { uv_sleep(10); }
static void answered(uv_work_t *r, int status) {
    struct connection *mine = r->data;
    mine->answers++;
    mine->used = uv_now(r->loop);
    if (r == &first) {
        second.data = mine;
        uv_queue_work(r->loop, &second, ask, answered);
    }
}
static void on_reaper(uv_timer_t *t) {
    if (uv_now(t->loop) - connection->used < 250) return;
    free(connection);
    uv_close((uv_handle_t *)t, NULL);
}
int main(void) {
    uv_loop_t *l = uv_default_loop();
    connection = calloc(1, sizeof *connection);
    connection->used = uv_now(l);
    first.data = connection;
    uv_timer_init(l, &reaper);
    uv_timer_start(&reaper, on_reaper, 100, 100);
    uv_queue_work(l, &first, ask, answered);
    uv_run(l, UV_RUN_DEFAULT);
    return 0;
}
