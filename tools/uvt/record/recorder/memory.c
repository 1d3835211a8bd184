/* The memory of handles: until the close callback it is libuv's, and no handle becomes another thing. */
#define _GNU_SOURCE
#include "recorder.h"

#include <errno.h>
#include <stddef.h>
#include <sys/uio.h>
#include <unistd.h>

REAL(uv_now)

/* So many handles are looked at at a time, one after another; and so often in a row, also within a millisecond. */
enum { SOME = 8, FEW = 64 };
/* All that libuv changes in none of them: which loop it has, and which kind of handle it is. */
enum { HEAD = offsetof(uv_handle_t, type) + sizeof(uv_handle_type) };

/* ---- the ring of a loop's handles */

void watch_memory(struct object *handle) {
    struct object *at = handle->loop->looked;
    handle->whole = CALL(uv_now)(handle->loop->uv);
    handle->ring_next = at ? at : handle;
    handle->ring_before = at ? at->ring_before : handle;
    handle->ring_before->ring_next = handle;
    handle->ring_next->ring_before = handle;
    handle->loop->looked = handle;
}

void leave_memory(struct object *handle) {
    struct object *next = handle->ring_next;
    if (!next) return;
    if (handle->loop->looked == handle) handle->loop->looked = next == handle ? NULL : next;
    handle->ring_before->ring_next = next;
    next->ring_before = handle->ring_before;
    handle->ring_next = handle->ring_before = NULL;
}

/* ---- what lies there */

/* (the memory may be gone: the system is asked for it, and says so. Where a sandbox lets nobody ask, nothing is known) */
static ssize_t heads(struct object *const handles[], int count, uv_handle_t found[]) {
    if (filtered) return -1;
    struct iovec here[SOME], there[SOME];
    for (int at = 0; at < count; at++) {
        here[at] = (struct iovec){&found[at], HEAD};
        there[at] = (struct iovec){handles[at]->address, HEAD};
    }
    int before = errno;
    ssize_t got = process_vm_readv(getpid(), here, (unsigned long)count, there, (unsigned long)count, 0);
    if (got < 0) got = errno == EFAULT ? 0 : -1;
    errno = before;
    return got;
}

/* Does it lie on the stack of its loop's thread? */
static bool is_on_stack(const struct object *handle) {
    pthread_attr_t attributes;
    void *from;
    size_t size;
    if (filtered || pthread_getattr_np(handle->loop->thread, &attributes)) return false;
    bool known = pthread_attr_getstack(&attributes, &from, &size) == 0;
    pthread_attr_destroy(&attributes);
    return known && (uintptr_t)handle->address - (uintptr_t)from < size;
}

static void note_written(struct object *handle, const char *what) {
    struct loop *loop = handle->loop;
    handle->written = true;
    write_line(loop, 'M', "%d %u%s%s", handle->id, handle->whole - loop->base, is_on_stack(handle) ? " stack" : "", what);
    leave_memory(handle);
}

/* Looks at one; false where nobody may look. */
static bool look_at(struct object *handle, ssize_t got, const uv_handle_t *found) {
    uv_handle_t alone;
    if (got < HEAD) {
        got = heads(&handle, 1, &alone);
        found = &alone;
    }
    if (got < 0) return false;
    if (got < HEAD || found->loop != handle->loop->uv || found->type != handle->type) note_written(handle, "");
    else handle->whole = handle->loop->looked_at;
    return true;
}

static void __attribute__((noinline)) look_at_some(struct loop *loop) {
    struct object *handles[SOME], *it = loop->looked;
    uv_handle_t found[SOME];
    int count = 0;
    do {
        handles[count++] = it;
        it = it->ring_next;
    } while (count < SOME && it != loop->looked);
    loop->looked = it;
    ssize_t got = heads(handles, count, found);
    for (int at = 0; at < count && got >= 0; at++) {
        ssize_t of_this = got - at * HEAD;
        if (!look_at(handles[at], of_this < 0 ? 0 : of_this, &found[at])) return;
    }
}

void look_at_memory(struct loop *loop) {
    if (off || !loop->uv || !loop->looked) return;
    uint64_t now = CALL(uv_now)(loop->uv);
    if (loop->looks < FEW) loop->looks++;
    else if (now == loop->looked_at) return;
    loop->looked_at = now;
    look_at_some(loop);
}

void note_made_over(const uv_loop_t *uv, const void *address) {
    struct object *other = find(address);
    if (off || !other || !other->handle || other->written || other->loop->uv != uv) return;
    note_written(other, " made");
}
