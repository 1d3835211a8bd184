/* Queues a request while a worker has it, which libuv forbids. Here it survives: the second work ends behind the after callback of the first. */
#include <stdio.h>
#include <uv.h>

static uv_work_t job;
static uv_sem_t begun, called;
static int works, afters;

static void work(uv_work_t *request) {
    (void)request;
    if (__atomic_add_fetch(&works, 1, __ATOMIC_SEQ_CST) == 1) uv_sem_wait(&begun);
    else {
        uv_sem_post(&begun);
        uv_sem_wait(&called);
    }
}

static void after(uv_work_t *request, int status) {
    (void)request, (void)status;
    printf("%s ", ++afters == 1 ? "one" : "two");
    uv_sem_post(&called);
}

static void again(uv_timer_t *timer) {
    if (__atomic_load_n(&works, __ATOMIC_SEQ_CST) == 0) return;
    uv_close((uv_handle_t *)timer, NULL);
    uv_queue_work(timer->loop, &job, work, after);
}

int main(void) {
    uv_loop_t *loop = uv_default_loop();
    uv_timer_t timer;
    uv_sem_init(&begun, 0);
    uv_sem_init(&called, 0);
    uv_timer_init(loop, &timer);
    uv_queue_work(loop, &job, work, after);
    uv_timer_start(&timer, again, 5, 5);
    uv_run(loop, UV_RUN_DEFAULT);
    printf("\n");
    return 0;
}
