/* Timers, idle, prepare, check and async handles: those that have a section of the loop. */
#define _GNU_SOURCE
#include "recorder.h"

#include <stdio.h>

REAL(uv_is_active)

#define CALLBACK(KIND)                                                       \
    static void on_##KIND(uv_##KIND##_t *handle) {                           \
        struct object *object = enter(handle, #KIND, "");                    \
        if (!object) return;                                                 \
        struct loop *loop = object->loop;                                    \
        int id = object->id;                                                 \
        if (object->callback) PROGRAM(((uv_##KIND##_cb)object->callback)(handle)); \
        leave(loop, handle, id);                                             \
    }

#define INIT(KIND)                                                    \
    REAL(uv_##KIND##_init)                                            \
    int uv_##KIND##_init(uv_loop_t *uv, uv_##KIND##_t *handle) {      \
        if (INSIDE()) return CALL(uv_##KIND##_init)(uv, handle);      \
        lock();                                                       \
        int answer = REALLY(CALL(uv_##KIND##_init)(uv, handle));      \
        if (answer == 0) made(uv, handle, #KIND, false);              \
        unlock();                                                     \
        return answer;                                                \
    }

/* An op of a handle that the program has made, without a callback. */
#define OP(NAME, KIND, WORD)                                          \
    REAL(NAME)                                                        \
    int NAME(KIND *handle) {                                          \
        if (INSIDE()) return CALL(NAME)(handle);                      \
        touch(handle);                                                \
        lock();                                                       \
        int answer = REALLY(CALL(NAME)(handle));                      \
        write_op(asked(handle), WORD, "", answer);                     \
        unlock();                                                     \
        return answer;                                                \
    }

/* Idle, prepare and check: one that is active already keeps the callback that it has. */
#define WATCH(KIND)                                                           \
    INIT(KIND)                                                                \
    CALLBACK(KIND)                                                            \
    REAL(uv_##KIND##_start)                                                   \
    int uv_##KIND##_start(uv_##KIND##_t *handle, uv_##KIND##_cb callback) {   \
        struct object *object;                                                \
        if (INSIDE() || !callback || !(object = asked(handle)))               \
            return CALL(uv_##KIND##_start)(handle, callback);                 \
        lock();                                                               \
        if (!CALL(uv_is_active)((uv_handle_t *)handle)) object->callback = (void *)callback; \
        name_callback(object, (void *)callback, OWN, #KIND);                  \
        int answer = REALLY(CALL(uv_##KIND##_start)(handle, on_##KIND));      \
        write_op(object, "start", "", answer);                                \
        unlock();                                                             \
        return answer;                                                        \
    }                                                                         \
    OP(uv_##KIND##_stop, uv_##KIND##_t, "stop")

WATCH(idle)
WATCH(prepare)
WATCH(check)

INIT(timer)
CALLBACK(timer)
OP(uv_timer_stop, uv_timer_t, "stop")
REAL(uv_timer_again)
REAL(uv_timer_get_repeat)

/* (it is due by the loop's time, which stands still in a long callback) */
static void write_late_start(const struct object *object, int answer) {
    if (object && answer == 0 && is_far_behind(object->loop)) write_line(object->loop, 'q', "%d", object->id);
}

/* Of a timer that doesn't repeat libuv changes nothing, and says ok: no op, since here it would stop the timer, but a line of its own. */
int uv_timer_again(uv_timer_t *handle) {
    if (INSIDE()) return CALL(uv_timer_again)(handle);
    touch(handle);
    lock();
    bool nothing = CALL(uv_timer_get_repeat)(handle) == 0;
    int answer = REALLY(CALL(uv_timer_again)(handle));
    struct object *object = asked(handle);
    if (object && answer == 0) object->due = handle->timeout;
    if (answer != 0 || !nothing) write_op(object, "again", "", answer), write_late_start(object, answer);
    else if (object) write_line(object->loop, 'I', "%d %s", object->id, __func__);
    unlock();
    return answer;
}

REAL(uv_timer_start)
REAL(uv_timer_set_repeat)

int uv_timer_start(uv_timer_t *handle, uv_timer_cb callback, uint64_t timeout, uint64_t repeat) {
    struct object *object;
    if (INSIDE() || !callback || !(object = asked(handle))) return CALL(uv_timer_start)(handle, callback, timeout, repeat);
    lock();
    int answer = REALLY(CALL(uv_timer_start)(handle, on_timer, timeout, repeat));
    if (answer == 0) object->callback = (void *)callback, object->due = handle->timeout;
    /* (what goes by before the loop runs counts as well) */
    if (in_callback != object->loop) note_share_now(object->loop);
    name_callback(object, (void *)callback, OWN, "timer");
    write_start(object, timeout, repeat, answer);
    write_late_start(object, answer);
    unlock();
    return answer;
}

void uv_timer_set_repeat(uv_timer_t *handle, uint64_t repeat) {
    char words[32];
    bool from_libuv = INSIDE();
    if (!from_libuv) touch(handle);
    CALL(uv_timer_set_repeat)(handle, repeat);
    if (from_libuv) return;
    snprintf(words, sizeof words, " %llu", (unsigned long long)repeat);
    lock();
    write_op(asked(handle), "repeat", words, 0);
    unlock();
}

/* ---- async handles */

CALLBACK(async)

REAL(uv_async_init)

int uv_async_init(uv_loop_t *uv, uv_async_t *handle, uv_async_cb callback) {
    if (INSIDE()) return CALL(uv_async_init)(uv, handle, callback);
    lock();
    int answer = REALLY(CALL(uv_async_init)(uv, handle, on_async));
    struct object *object = answer == 0 ? made(uv, handle, "async", false) : NULL;
    if (object) object->callback = (void *)callback;
    name_callback(object, (void *)callback, OWN, "async");
    unlock();
    return answer;
}

/* ---- those that were there before the recorder came */

#define ADOPT(TYPE, KIND)                                                \
    case TYPE: {                                                         \
        uv_##KIND##_t *it = object->address;                             \
        object->callback = (void *)it->KIND##_cb;                        \
        if (!object->callback) return;                                   \
        it->KIND##_cb = on_##KIND;                                       \
        name_callback(object, object->callback, OWN, #KIND);             \
        break;                                                           \
    }

void adopt_own(struct object *object) {
    switch (object->type) {
        ADOPT(UV_TIMER, timer)
        ADOPT(UV_IDLE, idle)
        ADOPT(UV_PREPARE, prepare)
        ADOPT(UV_CHECK, check)
        ADOPT(UV_ASYNC, async)
    default: break;
    }
    if (object->type == UV_TIMER) object->due = ((uv_timer_t *)object->address)->timeout;
}

#define RETURN(TYPE, KIND)                                                                                              \
    case TYPE: {                                                                                                        \
        uv_##KIND##_t *it = object->address;                                                                            \
        if (it->KIND##_cb == on_##KIND) it->KIND##_cb = (uv_##KIND##_cb)object->callback;                               \
        break;                                                                                                          \
    }

void return_own(struct object *object) {
    return_close(object);
    switch (object->type) {
        RETURN(UV_TIMER, timer)
        RETURN(UV_IDLE, idle)
        RETURN(UV_PREPARE, prepare)
        RETURN(UV_CHECK, check)
        RETURN(UV_ASYNC, async)
    default: break;
    }
}
