/* Callbacks that wait for a lock: a thread with a name of its own has it, one without, and the work of a request. */
#define _GNU_SOURCE
#include "truth.h"
#include <pthread.h>
static uv_timer_t report, index_timer, save;
static uv_mutex_t named, unnamed, worked;
static uv_thread_t compact, other;
static uv_sem_t has_it;
static uv_work_t job;
static void hold(uv_mutex_t *lock) {
    uv_mutex_lock(lock);
    uv_sem_post(&has_it);
    usleep(100000);
    uv_mutex_unlock(lock);
}
static void in_compact(void *none) {
    pthread_setname_np(pthread_self(), "compact");
    hold(&named);
}
static void in_other(void *none) { hold(&unnamed); }
static void in_job(uv_work_t *work) {
    uint64_t begin = uv_hrtime(), processor = processor_ns();
    hold(&worked);
    all_of_it("job", begin, processor);
}
static void on_job(uv_work_t *work, int status) {}
static void take(const char *who, uv_mutex_t *lock) {
    uint64_t begin = uv_hrtime(), processor = processor_ns();
    uv_mutex_lock(lock);
    uv_mutex_unlock(lock);
    all_of_it(who, begin, processor);
}
static void on_report(uv_timer_t *timer) { take("report", &named); }
static void on_index(uv_timer_t *timer) { take("index_timer", &unnamed); }
static void on_save(uv_timer_t *timer) { take("save", &worked); }
static void run_while(uv_thread_t *thread, uv_thread_cb holds, uv_timer_t *timer, uv_timer_cb callback) {
    uv_timer_init(uv_default_loop(), timer);
    uv_timer_start(timer, callback, 20, 0);
    if (holds) uv_thread_create(thread, holds, NULL);
    else uv_queue_work(uv_default_loop(), &job, in_job, on_job);
    uv_sem_wait(&has_it);
    uv_run(uv_default_loop(), UV_RUN_DEFAULT);
    if (holds) uv_thread_join(thread);
}
int main(void) {
    uv_mutex_init(&named);
    uv_mutex_init(&unnamed);
    uv_mutex_init(&worked);
    uv_sem_init(&has_it, 0);
    run_while(&compact, in_compact, &report, on_report);
    run_while(&other, in_other, &index_timer, on_index);
    run_while(NULL, NULL, &save, on_save);
    return 0;
}
