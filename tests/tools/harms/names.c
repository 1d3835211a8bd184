/* Functions of this program have names that any program may have, and the recorder, too. Linked with -rdynamic they are there for each library. */
#include <stdio.h>
#include <uv.h>

static int called;

#define MINE(NAME) \
    void NAME(void) { called++; }
MINE(lock) MINE(unlock) MINE(find) MINE(put) MINE(drop) MINE(each) MINE(real) MINE(enter) MINE(leave) MINE(settle) MINE(made) MINE(asked)

static void on_timer(uv_timer_t *timer) {
    lock(), find(), unlock();
    uv_close((uv_handle_t *)timer, NULL);
}

int main(void) {
    uv_timer_t timer;
    uv_timer_init(uv_default_loop(), &timer);
    uv_timer_start(&timer, on_timer, 1, 0);
    uv_run(uv_default_loop(), UV_RUN_DEFAULT);
    printf("%d calls\n", called);
    return 0;
}
