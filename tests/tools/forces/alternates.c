/* By itself its message comes ahead of its timer in the first run of all and in each second one behind it, and behind it in the others: alternates
 * FILE, which has a byte for each run. Where the timer came first it has freed what the message's callback uses. */
#include <fcntl.h>
#include <stdlib.h>
#include <sys/stat.h>
#include <unistd.h>
#include <uv.h>
static uv_async_t message;
static uv_timer_t limit;
static uv_sem_t gone;
static char *session;
static int late;
static void on_limit(uv_timer_t *t) {
    free(session);
    uv_sem_post(&gone);
    uv_close((uv_handle_t *)t, NULL);
}
static void on_message(uv_async_t *a) {
    session[0] = 'm';                        /* (freed, where the timer came first) */
    uv_close((uv_handle_t *)a, NULL);
}
static void sender(void *none) {
    if (late) uv_sem_wait(&gone);
    uv_async_send(&message);
}
int main(int count, char **words) {
    struct stat runs;
    uv_thread_t th;
    uv_loop_t *l = uv_default_loop();
    int file = open(words[1], O_CREAT | O_APPEND | O_WRONLY, 0600);
    if (file < 0 || fstat(file, &runs) || write(file, "r", 1) != 1) return 2;
    late = runs.st_size % 2;
    session = malloc(8);
    uv_sem_init(&gone, 0);
    uv_async_init(l, &message, on_message);
    uv_timer_init(l, &limit);
    uv_timer_start(&limit, on_limit, 500, 0);
    uv_thread_create(&th, sender, NULL);
    uv_run(l, UV_RUN_DEFAULT);
    uv_thread_join(&th);
    return 0;
}
