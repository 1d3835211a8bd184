/* Sessions whose timeouts are stopped, and freed without a close: the memory is soon something else, or another session. */
#include "truth.h"
#include <stdlib.h>
#include <string.h>
struct session { uv_timer_t timeout; char name[64]; };
static uv_timer_t next_session, late;
static struct session *session;
static int count;
static void on_timeout(uv_timer_t *timer) { (void)timer; }
static struct session *begin_session(void) {
    struct session *made = malloc(sizeof *made);
    uv_timer_init(uv_default_loop(), &made->timeout);
    uv_timer_start(&made->timeout, on_timeout, 1000, 0);
    return made;
}
static void end_session(struct session *ended) {
    uv_timer_stop(&ended->timeout);
    memset(ended, 0x5a, sizeof *ended);
    free(ended);
}
static void on_next(uv_timer_t *timer) {
    if (session) end_session(session);
    session = ++count < 3 ? begin_session() : NULL;
    if (count == 3) uv_timer_stop(timer);
}
static void on_late(uv_timer_t *timer) { (void)timer; works("late", 30); _exit(0); }
int main(void) {
    uv_loop_t *loop = uv_default_loop();
    setvbuf(stdout, NULL, _IONBF, 0);
    uv_timer_init(loop, &next_session);
    uv_timer_start(&next_session, on_next, 10, 10);
    uv_timer_init(loop, &late);
    uv_timer_start(&late, on_late, 50, 0);
    return uv_run(loop, UV_RUN_DEFAULT);
}
