// Handles of I/O. Each is a poll handle on one end of a pipe; into the other end a byte is written where something comes for it. The poll
// then returns what came in the order in which the step has it.
#define _GNU_SOURCE
#include <fcntl.h>
#include <stdlib.h>
#include <sys/epoll.h>
#include <unistd.h>

#include "run.h"

enum { ROOM = 1024 };

void open_io(Handle *handle) {
    if (pipe2(handle->ends, O_CLOEXEC | O_NONBLOCK) != 0 || uv_poll_init(run.loop, &handle->is.poll, handle->ends[0]) != 0)
        abort();
}

void close_io(Handle *handle) {
    if (handle->kind != IO || handle->ends[0] < 0)
        return;
    close(handle->ends[0]);
    close(handle->ends[1]);
    handle->ends[0] = handle->ends[1] = -1;
}

static void called(uv_poll_t *poll, int status, int events) {
    Handle *handle = (Handle *)poll;
    char byte;
    (void)status;
    (void)events;
    if (read(handle->ends[0], &byte, 1) == 1)
        call_handle(handle);
}

// The library doesn't take a start or a stop of a poll handle that closes; and a start of one that is active would stop it first.
int start_io(Handle *handle) {
    if (uv_is_closing(&handle->is.handle))
        return UV_EINVAL;
    return uv_is_active(&handle->is.handle) ? 0 : uv_poll_start(&handle->is.poll, UV_READABLE, called);
}

int stop_io(Handle *handle) {
    return uv_is_closing(&handle->is.handle) ? 0 : uv_poll_stop(&handle->is.poll);
}

// ---- what comes

static bool has_come(int name) {
    for (size_t at = 0; at < run.came_count; at++)
        if (run.came[at] == name)
            return true;
    return false;
}

// (what woke the loop comes once)
void let_come(const Step *step) {
    for (size_t at = 0; at < step->came_count && run.came_count < MOST_CAME; at++)
        if (step->came[at] != WAKE || !has_come(WAKE))
            run.came[run.came_count++] = step->came[at];
}

// What came for who was stopped before its callback is gone.
void forget_what_came(void) {
    char byte;
    for (Handle *handle = run.last_made; handle != NULL; handle = handle->before)
        if (handle->kind == IO && handle->ends[0] >= 0)
            while (read(handle->ends[0], &byte, 1) == 1) {
            }
}

static Handle *waiting_for_io(int name) {
    Handle *handle = name < 0 ? NULL : run.script.names[name].bound;
    return handle != NULL && handle->kind == IO && uv_is_active(&handle->is.handle) ? handle : NULL;
}

// The file of what came: a pipe's, or that by which the loop is woken.
static int file_of(int name) {
    Handle *handle = waiting_for_io(name);
    return name == WAKE ? run.loop->async_io_watcher.fd : handle == NULL ? -1 : handle->ends[0];
}

static const struct epoll_event *of_file(const struct epoll_event *seen, int count, int file) {
    for (int at = 0; at < count; at++)
        if (seen[at].data.fd == file)
            return &seen[at];
    return NULL;
}

static bool is_named(int file) {
    for (size_t at = 0; at < run.came_count; at++)
        if (file_of(run.came[at]) == file)
            return true;
    return false;
}

int look_for_what_came(int poll, struct epoll_event *events, int room) {
    struct epoll_event seen[ROOM];
    int count = 0;
    for (size_t at = 0; at < run.came_count; at++) {
        Handle *handle = waiting_for_io(run.came[at]);
        if (handle != NULL && write(handle->ends[1], "!", 1) != 1)
            abort();
    }
    int found = look_for_events(poll, seen, ROOM);
    for (size_t at = 0; at < run.came_count && count < room; at++) {
        const struct epoll_event *event = of_file(seen, found, file_of(run.came[at]));
        if (event != NULL)
            events[count++] = *event;
    }
    for (int at = 0; at < found && count < room; at++)
        if (!is_named(seen[at].data.fd))
            events[count++] = seen[at];
    run.came_count = 0;
    return count;
}
