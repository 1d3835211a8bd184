/* What all handles have in common: they are made, their callbacks begin and end, they are referenced and closed. */
#define _GNU_SOURCE
#include "recorder.h"

#include <string.h>

REAL(uv_close)
REAL(uv_ref)
REAL(uv_unref)
REAL(uv_is_closing)
REAL(uv_is_active)
REAL(uv_has_ref)
REAL(uv_handle_size)
REAL(uv_handle_get_type)

static void note_late_timer(struct object *timer) {
    uint64_t now = clock_ms(), since = timer->due;
    /* (what went by before its loop was known, as the recorder opened its files, is none of it) */
    if (since < timer->loop->known_from) since = timer->loop->known_from;
    if (timer->due && now > since && now - since >= minds_late()) {
        uint64_t waited = waited_since(timer->loop, since, waited_by(now, true));
        note_late(timer->loop, "timer", timer->id, &(struct late){now, now - since, waited});
    }
    /* (one that repeats was started again by libuv) */
    timer->due = ((uv_timer_t *)timer->address)->timeout;
}

/* (libuv stops some watchers before their last callback: at the end of a stream, for a signal that comes once. The op belongs behind it,
 * since who isn't active isn't called) */
struct object *enter(void *handle, const char *what, const char *known) {
    lock();
    struct object *object = find(handle);
    if (object) {
        settle_all(object->loop, object);
        if (minds_late() && object->type == UV_TIMER) note_late_timer(object);
        object->loop->begun++;
        if (!object->watcher && strcmp(object->kind, "async") != 0) object->loop->away++;
        write_begin(object->loop, object->id, what, known);
    }
    unlock();
    return object;
}

/* (its queue's first word leads to itself where it is empty) */
const char *put_off(const struct loop *loop) {
    const void *queue = &loop->uv->pending_queue;
    return *(void *const *)queue == queue ? "" : " +";
}

void write_end(struct loop *loop, int id) {
    if (!loop->uv) return;
    write_number(loop, 'E', id, put_off(loop));
    look_at_memory(loop);
}

/* The handle may be gone by now, and another one have its address. */
void leave(struct loop *loop, void *handle, int id) {
    lock();
    called_from = NULL;
    struct object *object = find(handle);
    if (object && object->id != id) object = NULL;
    if (object) settle(object);
    write_end(loop, id);
    if (object && object->watcher && !object->is_unsettled) {
        object->is_unsettled = true;
        object->next_unsettled = loop->unsettled;
        loop->unsettled = object;
    }
    unlock();
}

struct object *made(uv_loop_t *uv, void *handle, const char *kind, bool watcher) {
    note_made_over(uv, handle);
    struct object *object = put(loop_of(uv), handle);
    if (!object) return NULL;
    note_thread(object->loop, object->id);
    object->watcher = watcher;
    object->handle = true;
    object->kind = kind;
    object->type = CALL(uv_handle_get_type)(handle);
    object->size = (int)CALL(uv_handle_size)(object->type);
    watch_memory(object);
    write_made(object, "init", kind);
    /* (what goes by before the loop runs counts as well) */
    if (in_callback != object->loop) note_share_now(object->loop);
    name_place(object);
    settle(object);
    return object;
}

/* A request of a watcher that is under way keeps the loop alive, as a handle that is active and referenced does. */
void settle(struct object *watcher) {
    if (!watcher || !watcher->watcher || watcher->written || CALL(uv_is_closing)(watcher->address)) return;
    bool active = CALL(uv_is_active)(watcher->address) || watcher->requests > 0;
    bool unreferenced = !CALL(uv_has_ref)(watcher->address) && watcher->requests == 0;
    if (active != watcher->active) write_op(watcher, active ? "start" : "stop", "", 0);
    if (unreferenced != watcher->unreferenced) write_op(watcher, unreferenced ? "unref" : "ref", "", 0);
    watcher->active = active;
    watcher->unreferenced = unreferenced;
}

/* libuv stops some watchers after their callback: before the loop's next event they are looked at once more. (One whose callback begins
 * is looked at as that ends.) */
void settle_all(struct loop *loop, const struct object *but) {
    called_from = NULL;
    while (loop->unsettled) {
        struct object *watcher = loop->unsettled;
        loop->unsettled = watcher->next_unsettled;
        watcher->is_unsettled = false;
        if (watcher != but) settle(watcher);
    }
}

/* ---- close and references */

static void on_closed(uv_handle_t *handle) {
    lock();
    struct object *object = find(handle);
    /* (its memory is something else already) */
    if (!object || !object->handle) {
        unlock();
        return;
    }
    struct loop *loop = object->loop;
    uv_close_cb callback = object->closed;
    int id = object->id;
    settle_all(loop, object);
    loop->begun++, loop->away++;
    write_closed(loop, id);
    drop(object); /* the callback may free the memory, or make a new handle there */
    unlock();
    if (callback) PROGRAM(callback(handle));
    lock();
    write_end(loop, id);
    unlock();
}

void return_close(struct object *object) {
    uv_handle_t *handle = object->address;
    if (handle->close_cb == on_closed) handle->close_cb = object->closed;
}

void uv_close(uv_handle_t *handle, uv_close_cb callback) {
    lock();
    struct object *object = INSIDE() ? NULL : asked(handle);
    if (object) {
        object->closed = callback;
        name_callback(object, (void *)callback, CLOSED, "closed");
        write_op(object, "close", "", 0);
    }
    unlock();
    inside++;
    CALL(uv_close)(handle, object ? on_closed : callback);
    inside--;
}

REAL(uv_tcp_close_reset)
int uv_tcp_close_reset(uv_tcp_t *handle, uv_close_cb callback) {
    struct object *object;
    if (INSIDE() || !(object = asked(handle))) return CALL(uv_tcp_close_reset)(handle, callback);
    lock();
    object->closed = callback;
    int answer = REALLY(CALL(uv_tcp_close_reset)(handle, on_closed));
    if (answer == 0) write_op(object, "close", "", 0);
    unlock();
    return answer;
}

static void referenced(uv_handle_t *handle, const char *word) {
    lock();
    struct object *object = asked(handle);
    if (object && object->watcher) settle(object);
    else write_op(object, word, "", 0);
    unlock();
}

void uv_ref(uv_handle_t *handle) {
    bool from_libuv = INSIDE();
    if (!from_libuv) touch(handle);
    CALL(uv_ref)(handle);
    if (!from_libuv) referenced(handle, "ref");
}

void uv_unref(uv_handle_t *handle) {
    bool from_libuv = INSIDE();
    if (!from_libuv) touch(handle);
    CALL(uv_unref)(handle);
    if (!from_libuv) referenced(handle, "unref");
}
