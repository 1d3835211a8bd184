/* Loops and their runs. */
#define _GNU_SOURCE
#include "recorder.h"

REAL(uv_loop_init)
REAL(uv_default_loop)
REAL(uv_loop_close)
REAL(uv_run)
REAL(uv_stop)
REAL(uv_update_time)
REAL(uv_walk)

int uv_loop_init(uv_loop_t *uv) {
    if (INSIDE()) return CALL(uv_loop_init)(uv);
    int answer = REALLY(CALL(uv_loop_init)(uv));
    lock();
    if (answer == 0) new_loop(uv);
    unlock();
    return answer;
}

uv_loop_t *uv_default_loop(void) {
    if (INSIDE()) return CALL(uv_default_loop)();
    uv_loop_t *uv = REALLY(CALL(uv_default_loop)());
    lock();
    if (uv) loop_of(uv);
    unlock();
    return uv;
}

int uv_loop_close(uv_loop_t *uv) {
    if (INSIDE()) return CALL(uv_loop_close)(uv);
    lock();
    struct loop *loop = loop_of(uv);
    /* (a loop that is closed has no time any more, so the line comes before what it says) */
    inside++;
    int busy = CALL(uv_loop_close)(uv);
    inside--;
    if (loop && busy) write_line(loop, 'O', "closeloop = %s", answer_text(busy));
    if (loop && !busy) close_loop(loop);
    unlock();
    return busy;
}

static const char *const MODES[] = {"default", "once", "nowait"};
static __thread struct loop *run_here; /* the loop that this thread runs */

struct loop *running_here(void) {
    return run_here;
}

void is_in_run(struct loop *loop) {
    run_here = loop;
    loop->thread = pthread_self();
    loop->running = 1;
    loop->mode = UV_RUN_DEFAULT;
    loop->adopted = true;
}

void is_in_no_run(void) {
    run_here = NULL;
}

void write_run(struct loop *loop) {
    write_line(loop, 'R', "%s%s", (unsigned)loop->mode < 3 ? MODES[loop->mode] : "default", put_off(loop));
}

REAL(uv_loop_alive)

/* (that run wasn't seen to begin, and isn't seen to end) */
static void end_adopted(struct loop *loop) {
    settle_all(loop, NULL);
    loop->adopted = false;
    loop->running--;
    write_line(loop, 'r', "%d", CALL(uv_loop_alive)(loop->uv) != 0);
    if (run_here == loop) run_here = NULL;
}

int uv_run(uv_loop_t *uv, uv_run_mode mode) {
    if (INSIDE()) return CALL(uv_run)(uv, mode);
    lock();
    struct loop *loop = loop_of(uv);
    if (loop && loop->adopted) end_adopted(loop);
    struct loop *outer = run_here;
    uv_run_mode outer_mode = loop ? loop->mode : mode;
    if (loop) {
        settle_all(loop, NULL);
        if (!pthread_equal(loop->thread, pthread_self())) loop->shared = 0;
        loop->thread = pthread_self();
        loop->running++;
        loop->mode = mode;
        loop->begun++, loop->away++;
        write_run(loop);
        look_at_memory(loop);
    }
    run_here = loop;
    struct wait wait;
    bool waits = in_callback && begin_wait(&wait, __func__, __builtin_return_address(0));
    unlock();
    int alive = CALL(uv_run)(uv, mode);
    if (waits) end_wait(&wait, __func__, __builtin_return_address(0));
    else if (!outer) no_stacks();
    lock();
    run_here = outer;
    if (loop && loop->uv == uv) {
        settle_all(loop, NULL);
        loop->running--;
        loop->mode = outer_mode;
        write_line(loop, 'r', "%d", alive != 0);
    }
    unlock();
    return alive;
}

void uv_stop(uv_loop_t *uv) {
    bool from_libuv = INSIDE();
    CALL(uv_stop)(uv);
    if (from_libuv) return;
    lock();
    struct loop *loop = loop_of(uv);
    if (loop) note_thread(loop, -1);
    if (loop) write_line(loop, 'O', "stoploop = ok");
    unlock();
}

void uv_update_time(uv_loop_t *uv) {
    bool from_libuv = INSIDE();
    inside++;
    CALL(uv_update_time)(uv);
    inside--;
    if (from_libuv) return;
    lock();
    struct loop *loop = loop_of(uv);
    if (loop) note_thread(loop, -1);
    if (loop) write_line(loop, 'O', "updatetime = ok");
    unlock();
}

/* A callback of uv_walk may end in a call of libuv, which would come from libuv's text then. */
struct walk {
    uv_walk_cb callback;
    void *word;
};

static void walk_one(uv_handle_t *handle, void *word) {
    struct walk *walk = word;
    PROGRAM(walk->callback(handle, walk->word));
}

void uv_walk(uv_loop_t *uv, uv_walk_cb callback, void *word) {
    struct walk walk = {callback, word};
    if (INSIDE()) CALL(uv_walk)(uv, callback, word);
    else CALL(uv_walk)(uv, walk_one, &walk);
}
