/* A lookup with a time limit: when the time is up it is cancelled, and its memory goes, though a worker may have it yet. */
#include <stdio.h>
#include <stdlib.h>
#include <uv.h>
struct lookup { uv_work_t work; int answer; };
static struct lookup *lookup;
static uv_timer_t limit;
static void resolve(uv_work_t *r) { uv_sleep(3); }
static void resolved(uv_work_t *r, int status) {
    struct lookup *mine = r->data;
    mine->answer = 42;
    if (!uv_is_closing((uv_handle_t *)&limit)) uv_close((uv_handle_t *)&limit, NULL);
    printf("answer %d\n", mine->answer);
}
static void on_limit(uv_timer_t *t) {
    printf("time is up\n");
    uv_close((uv_handle_t *)t, NULL);
    if (uv_cancel((uv_req_t *)&lookup->work) != 0) free(lookup);
}
int main(void) {
    uv_loop_t *loop = uv_default_loop();
    uv_timer_init(loop, &limit);
    uv_timer_start(&limit, on_limit, 50, 0);
    lookup = malloc(sizeof *lookup);
    lookup->work.data = lookup;
    uv_queue_work(loop, &lookup->work, resolve, resolved);
    return uv_run(loop, UV_RUN_DEFAULT);
}
