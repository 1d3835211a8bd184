/* A request with a time limit: where its cancel comes in time, its memory goes with its after callback, and with the timer's close callback, too. */
#include <stdlib.h>
#include <uv.h>
struct fetch { uv_work_t work; uv_timer_t limit; };
static void get(uv_work_t *r) { uv_sleep(20); }
static void freed(uv_handle_t *h) { free(h->data); }
static void got(uv_work_t *r, int status) {
    struct fetch *mine = r->data;
    if (status == UV_ECANCELED) free(mine);
    else if (!uv_is_closing((uv_handle_t *)&mine->limit)) uv_close((uv_handle_t *)&mine->limit, freed);
}
static void on_limit(uv_timer_t *t) {
    struct fetch *mine = t->data;
    if (uv_cancel((uv_req_t *)&mine->work) == 0) uv_close((uv_handle_t *)t, freed);
}
int main(void) {
    uv_loop_t *l = uv_default_loop();
    struct fetch *fetch = malloc(sizeof *fetch);
    fetch->work.data = fetch->limit.data = fetch;
    uv_timer_init(l, &fetch->limit);
    uv_timer_start(&fetch->limit, on_limit, 400, 0);
    uv_queue_work(l, &fetch->work, get, got);
    uv_run(l, UV_RUN_DEFAULT);
    return 0;
}
