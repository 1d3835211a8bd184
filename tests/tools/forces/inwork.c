/* A worker reads what the loop gives back after a while. */
#include <stdio.h>
#include <stdlib.h>
#include <uv.h>
struct input { int count; };
static struct input *input;
static int sum;
static uv_work_t work;
static uv_timer_t tidy;
static void add(uv_work_t *r) { sum += input->count; }
static void added(uv_work_t *r, int status) { printf("sum %d\n", sum); }
static void on_tidy(uv_timer_t *t) {
    free(input);
    uv_close((uv_handle_t *)t, NULL);
}
int main(void) {
    uv_loop_t *loop = uv_default_loop();
    input = calloc(1, sizeof *input);
    uv_timer_init(loop, &tidy);
    uv_timer_start(&tidy, on_tidy, 30, 0);
    uv_queue_work(loop, &work, add, added);
    return uv_run(loop, UV_RUN_DEFAULT);
}
