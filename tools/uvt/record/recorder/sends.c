/* Sends to async handles, by the loop's thread and by others. */
#define _GNU_SOURCE
#include "recorder.h"

#include <dlfcn.h>
#include <string.h>

REAL(uv_async_send)

/* The wake of node's platform: V8's threads send to it when they like, and no JavaScript asks for it. */
bool is_nodes_own(void *callback) {
    static void *known, *other;
    if (callback == known) return true;
    if (callback == other) return false;
    Dl_info info;
    bool is = dladdr(callback, &info) && info.dli_sname && strstr(info.dli_sname, "PerIsolatePlatformData");
    if (is) known = callback;
    else other = callback;
    return is;
}

/* A send that force_hold has kept back: by the loop's thread, where its step is. */
void send_held(struct object *object, uint64_t thread) {
    lock();
    write_line(object->loop, 'S', "%d %u", object->id, thread);
    unlock();
    REALLY(CALL(uv_async_send)((uv_async_t *)object->address));
}

/* By the loop's thread it is an op; by another one it is a line of its own, before the send. */
static int send_here(uv_async_t *handle) {
    lock();
    struct object *object = find(handle);
    pthread_t here = pthread_self();
    bool own = object && pthread_equal(object->loop->thread, here);
    struct sender *sender = NULL;
    if (!own && forces()) {
        bool held = object && is_nodes_own(object->callback) && force_hold(object);
        unlock();
        if (held) return 0;
        force_send(handle, &sender);
        lock();
        object = find(handle);
    }
    touch(handle);
    if (own && forces() && is_nodes_own(object->callback)) {
        write_op(object, "send", "", 0);
        int answer = 0;
        if (force_sends()) answer = REALLY(CALL(uv_async_send)(handle));
        else force_hold(object);
        unlock();
        return answer;
    }
    struct loop *by = running_here();
    if (object && !own && by) write_line(object->loop, 'S', "%d %u %d", object->id, (uint64_t)here, by->number);
    else if (object && !own) write_line(object->loop, 'S', "%d %u", object->id, (uint64_t)here);
    /* (a loop that this wakes needs the lock at once) */
    bool later = !own && !forces();
    if (later) unlock();
    int answer = REALLY(CALL(uv_async_send)(handle));
    if (own) write_op(object, "send", "", answer);
    if (!later) unlock();
    if (sender) force_sent(sender);
    return answer;
}

__thread bool sends_here;

/* (a signal's handler may send while its thread is at a line: that send isn't recorded. What the program was at by then it is at behind it, too) */
int uv_async_send(uv_async_t *handle) {
    const char *outer = called;
    const void *outer_from = called_from;
    if (INSIDE() || is_locked_here()) {
        called = outer, called_from = outer_from;
        return CALL(uv_async_send)(handle);
    }
    sends_here = true;
    int answer = send_here(handle);
    sends_here = false;
    called = outer, called_from = outer_from;
    return answer;
}
