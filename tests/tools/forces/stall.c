/* A question with a time limit: where the answer comes as the limit is over, what was asked is gone. */
#include <stdio.h>
#include <stdlib.h>
#include <uv.h>
struct question { int answer; };
static struct question *question;
static uv_async_t answer;
static uv_timer_t limit, last;
static void on_answer(uv_async_t *a) {
    question->answer = 42;
    uv_timer_stop(&limit);
    printf("answer %d\n", question->answer);
}
static void on_limit(uv_timer_t *t) { printf("time is up\n"); free(question); }
static void on_last(uv_timer_t *t) {
    uv_close((uv_handle_t *)&answer, NULL);
    uv_close((uv_handle_t *)&limit, NULL);
    uv_close((uv_handle_t *)t, NULL);
}
static void think(void *none) { uv_sleep(5); uv_async_send(&answer); }
int main(void) {
    uv_thread_t thread;
    uv_loop_t *loop = uv_default_loop();
    question = calloc(1, sizeof *question);
    uv_async_init(loop, &answer, on_answer);
    uv_timer_init(loop, &limit);
    uv_timer_init(loop, &last);
    uv_timer_start(&limit, on_limit, 40, 0);
    uv_timer_start(&last, on_last, 80, 0);
    uv_thread_create(&thread, think, NULL);
    uv_run(loop, UV_RUN_DEFAULT);
    uv_thread_join(&thread);
    return 0;
}
