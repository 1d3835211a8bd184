/* Watchers: handles of I/O, signals, files and processes. */
#define _GNU_SOURCE
#include "known.h"

#include <stdio.h>

/* ---- init */

#define INIT(NAME, TYPE, KIND, PARAMETERS, WORDS)               \
    REAL(NAME)                                                  \
    int NAME PARAMETERS {                                       \
        if (INSIDE()) return CALL(NAME) WORDS;                  \
        lock();                                                 \
        int answer = REALLY(CALL(NAME) WORDS);                  \
        if (answer == 0) made(uv, handle, KIND, true);          \
        unlock();                                               \
        return answer;                                          \
    }

INIT(uv_tcp_init, uv_tcp_t, "tcp", (uv_loop_t * uv, uv_tcp_t *handle), (uv, handle))
INIT(uv_tcp_init_ex, uv_tcp_t, "tcp", (uv_loop_t * uv, uv_tcp_t *handle, unsigned flags), (uv, handle, flags))
INIT(uv_udp_init, uv_udp_t, "udp", (uv_loop_t * uv, uv_udp_t *handle), (uv, handle))
INIT(uv_udp_init_ex, uv_udp_t, "udp", (uv_loop_t * uv, uv_udp_t *handle, unsigned flags), (uv, handle, flags))
INIT(uv_pipe_init, uv_pipe_t, "pipe", (uv_loop_t * uv, uv_pipe_t *handle, int ipc), (uv, handle, ipc))
INIT(uv_tty_init, uv_tty_t, "tty", (uv_loop_t * uv, uv_tty_t *handle, uv_file file, int unused), (uv, handle, file, unused))
INIT(uv_poll_init, uv_poll_t, "poll", (uv_loop_t * uv, uv_poll_t *handle, int file), (uv, handle, file))
INIT(uv_poll_init_socket, uv_poll_t, "poll", (uv_loop_t * uv, uv_poll_t *handle, uv_os_sock_t file), (uv, handle, file))
INIT(uv_signal_init, uv_signal_t, "signal", (uv_loop_t * uv, uv_signal_t *handle), (uv, handle))
INIT(uv_fs_event_init, uv_fs_event_t, "fs_event", (uv_loop_t * uv, uv_fs_event_t *handle), (uv, handle))
INIT(uv_fs_poll_init, uv_fs_poll_t, "fs_poll", (uv_loop_t * uv, uv_fs_poll_t *handle), (uv, handle))

/* ---- what came */

static struct known bytes_known(ssize_t length) {
    struct known known;
    if (length < 0) return status_known((int)length);
    snprintf(known.text, sizeof known.text, "%zd", length);
    return known;
}

/* (without a sender there is none) */
static struct known datagram_known(ssize_t length, const void *from) {
    struct known none = {"none"};
    return length == 0 && !from ? none : bytes_known(length);
}

static struct known exit_known(int64_t status, int number) {
    struct known known;
    snprintf(known.text, sizeof known.text, "%d %d", (int)status, number);
    return known;
}

/* The signs of those of these bits that are set. */
static struct known bits_known(int status, int bits, const char *signs) {
    struct known known;
    size_t length = 0;
    if (status < 0) return status_known(status);
    for (; *signs; signs++, bits >>= 1)
        if (bits & 1) known.text[length++] = *signs;
    known.text[length] = 0;
    return known;
}

/* ---- callbacks */

#define CALLBACK(NAME, TYPE, FIELD, WHAT, KNOWN, PARAMETERS, WORDS)  \
    static void NAME PARAMETERS {                                    \
        struct object *object = enter(handle, WHAT, (KNOWN).text);   \
        if (!object) return;                                         \
        struct loop *loop = object->loop;                            \
        int id = object->id;                                         \
        if (object->FIELD) PROGRAM(((TYPE)object->FIELD)WORDS);      \
        leave(loop, handle, id);                                     \
    }

CALLBACK(on_read, uv_read_cb, callback, "read", bytes_known(length), (uv_stream_t * handle, ssize_t length, const uv_buf_t *bytes),
         (handle, length, bytes))
CALLBACK(on_connection, uv_connection_cb, second, "connection", status_known(status), (uv_stream_t * handle, int status), (handle, status))
CALLBACK(on_poll, uv_poll_cb, callback, "poll", bits_known(status, events, "rwdp"), (uv_poll_t * handle, int status, int events),
         (handle, status, events))
CALLBACK(on_signal, uv_signal_cb, callback, "signal", bytes_known(number), (uv_signal_t * handle, int number), (handle, number))
CALLBACK(on_exit_of, uv_exit_cb, callback, "exit", exit_known(status, number), (uv_process_t * handle, int64_t status, int number),
         (handle, status, number))
CALLBACK(on_fs_event, uv_fs_event_cb, callback, "fs_event", bits_known(status, events, "rc"),
         (uv_fs_event_t * handle, const char *name, int events, int status), (handle, name, events, status))
CALLBACK(on_fs_poll, uv_fs_poll_cb, callback, "fs_poll", status_known(status),
         (uv_fs_poll_t * handle, int status, const uv_stat_t *before, const uv_stat_t *now), (handle, status, before, now))
CALLBACK(on_receive, uv_udp_recv_cb, callback, "receive", datagram_known(length, from),
         (uv_udp_t * handle, ssize_t length, const uv_buf_t *bytes, const struct sockaddr *from, unsigned flags),
         (handle, length, bytes, from, flags))

/* Where bytes go the program says in front of their callback: what that takes counts as the callback's. (Its own place is that of the function: a
 * byte behind, as of a call.) */
static void on_alloc(uv_handle_t *handle, size_t size, uv_buf_t *bytes) {
    lock();
    struct object *object = find(handle);
    uv_alloc_cb alloc = object ? (uv_alloc_cb)object->alloc : NULL;
    struct loop *loop = running_here(), *own = object ? object->loop : NULL;
    unlock();
    *bytes = (uv_buf_t){0};
    if (!alloc) return;
    struct usage before;
    uint64_t begin = clock_behind(&before);
    PROGRAM(alloc(handle, size, bytes));
    uint64_t took = clock_ms() - begin;
    if (took < 2 || !loop || loop != own) return;
    lock();
    const void *from = called_from;
    called_from = (const char *)(void *)alloc + 1;
    write_line(loop, 'D', "alloc %u", took);
    called_from = from;
    loop->early = begin;
    loop->early_usage = before;
    unlock();
}

/* ---- start and stop */

static uv_alloc_cb own_alloc(struct object *object, uv_alloc_cb alloc) {
    if (!object || !alloc || forces()) return alloc;
    object->alloc = (void *)alloc;
    return on_alloc;
}

/* WITH(x) are the function's words with x as the callback. */
#define START(NAME, FIELD, ROLE, WHAT, INSTEAD, PARAMETERS, WITH)                    \
    REAL(NAME)                                                                       \
    int NAME PARAMETERS {                                                            \
        struct object *object = NULL;                                                \
        if (INSIDE() || !callback || !(object = asked(handle))) return CALL(NAME) WITH(callback); \
        lock();                                                                      \
        void *before = object->FIELD;                                                \
        object->FIELD = (void *)callback;                                            \
        name_callback(object, (void *)callback, ROLE, WHAT);                         \
        int answer = REALLY(CALL(NAME) WITH(INSTEAD));                               \
        if (answer != 0) object->FIELD = before;                                     \
        settle(object);                                                              \
        unlock();                                                                    \
        return answer;                                                               \
    }

#define W_READ(x) (handle, own_alloc(object, alloc), x)
#define W_LISTEN(x) (handle, backlog, x)
#define W_POLL(x) (handle, events, x)
#define W_SIGNAL(x) (handle, x, number)
#define W_PATH(x) (handle, x, path, number)
START(uv_read_start, callback, OWN, "read", on_read, (uv_stream_t * handle, uv_alloc_cb alloc, uv_read_cb callback), W_READ)
START(uv_udp_recv_start, callback, OWN, "receive", on_receive, (uv_udp_t * handle, uv_alloc_cb alloc, uv_udp_recv_cb callback), W_READ)
START(uv_listen, second, CONNECTION, "connection", on_connection, (uv_stream_t * handle, int backlog, uv_connection_cb callback), W_LISTEN)
START(uv_poll_start, callback, OWN, "poll", on_poll, (uv_poll_t * handle, int events, uv_poll_cb callback), W_POLL)
START(uv_signal_start, callback, OWN, "signal", on_signal, (uv_signal_t * handle, uv_signal_cb callback, int number), W_SIGNAL)
START(uv_signal_start_oneshot, callback, OWN, "signal", on_signal, (uv_signal_t * handle, uv_signal_cb callback, int number), W_SIGNAL)
START(uv_fs_event_start, callback, OWN, "fs_event", on_fs_event,
      (uv_fs_event_t * handle, uv_fs_event_cb callback, const char *path, unsigned number), W_PATH)
START(uv_fs_poll_start, callback, OWN, "fs_poll", on_fs_poll,
      (uv_fs_poll_t * handle, uv_fs_poll_cb callback, const char *path, unsigned number), W_PATH)

/* ---- what was started before the recorder came */

#define ADOPT(FIELD, TYPE, CALLBACK_FIELD, ROLE, WHAT, INSTEAD)                    \
    {                                                                              \
        TYPE *it = object->address;                                                \
        object->FIELD = (void *)it->CALLBACK_FIELD;                                \
        if (it->CALLBACK_FIELD) it->CALLBACK_FIELD = INSTEAD;                      \
        name_callback(object, object->FIELD, ROLE, WHAT);                          \
    }

/* (of fs_poll libuv keeps the callback in memory of its own: it stays the program's) */
void adopt_watcher(struct object *object) {
    switch (object->type) {
    case UV_TCP:
    case UV_NAMED_PIPE:
    case UV_TTY:
        ADOPT(callback, uv_stream_t, read_cb, OWN, "read", on_read)
        ADOPT(second, uv_stream_t, connection_cb, CONNECTION, "connection", on_connection)
        break;
    case UV_UDP: ADOPT(callback, uv_udp_t, recv_cb, OWN, "receive", on_receive) break;
    case UV_POLL: ADOPT(callback, uv_poll_t, poll_cb, OWN, "poll", on_poll) break;
    case UV_SIGNAL: ADOPT(callback, uv_signal_t, signal_cb, OWN, "signal", on_signal) break;
    case UV_FS_EVENT: ADOPT(callback, uv_fs_event_t, cb, OWN, "fs_event", on_fs_event) break;
    case UV_PROCESS: ADOPT(callback, uv_process_t, exit_cb, OWN, "exit", on_exit_of) break;
    default: break;
    }
}

#define RETURN(FIELD, TYPE, CALLBACK_FIELD, INSTEAD)                                                          \
    {                                                                                                         \
        TYPE *it = object->address;                                                                           \
        if (it->CALLBACK_FIELD == INSTEAD) it->CALLBACK_FIELD = (__typeof__(it->CALLBACK_FIELD))object->FIELD; \
    }

void return_watcher(struct object *object) {
    switch (object->type) {
    case UV_TCP:
    case UV_NAMED_PIPE:
    case UV_TTY:
        RETURN(callback, uv_stream_t, read_cb, on_read)
        RETURN(second, uv_stream_t, connection_cb, on_connection)
        RETURN(alloc, uv_stream_t, alloc_cb, on_alloc)
        break;
    case UV_UDP:
        RETURN(callback, uv_udp_t, recv_cb, on_receive)
        RETURN(alloc, uv_udp_t, alloc_cb, on_alloc)
        break;
    case UV_POLL: RETURN(callback, uv_poll_t, poll_cb, on_poll) break;
    case UV_SIGNAL: RETURN(callback, uv_signal_t, signal_cb, on_signal) break;
    case UV_FS_EVENT: RETURN(callback, uv_fs_event_t, cb, on_fs_event) break;
    case UV_PROCESS: RETURN(callback, uv_process_t, exit_cb, on_exit_of) break;
    default: break;
    }
}

#define STOP(NAME, TYPE)                            \
    REAL(NAME)                                      \
    int NAME(TYPE *handle) {                        \
        if (INSIDE()) return CALL(NAME)(handle);    \
        lock();                                     \
        int answer = REALLY(CALL(NAME)(handle));    \
        settle(asked(handle));                      \
        unlock();                                   \
        return answer;                              \
    }

STOP(uv_read_stop, uv_stream_t)
STOP(uv_udp_recv_stop, uv_udp_t)
STOP(uv_poll_stop, uv_poll_t)
STOP(uv_signal_stop, uv_signal_t)
STOP(uv_fs_event_stop, uv_fs_event_t)
STOP(uv_fs_poll_stop, uv_fs_poll_t)

static pid_t reaped_child;
static const void *reaped_by;

static void tell_reaped(struct object *it) {
    if (it->handle && it->kind && strcmp(it->kind, "process") == 0 && it->active && ((uv_process_t *)it->address)->pid == reaped_child) {
        called_from = reaped_by;
        write_line(it->loop, 'Z', "%d", it->id);
        reaped_child = 0;
    }
}

void note_reaped(struct loop *loop, pid_t child, const void *caller) {
    lock();
    const void *before = called_from;
    reaped_child = child, reaped_by = caller;
    each(loop, tell_reaped);
    called_from = before;
    unlock();
}

/* A process is a handle also where it could not be started, and the program closes it. */
REAL(uv_spawn)
int uv_spawn(uv_loop_t *uv, uv_process_t *handle, const uv_process_options_t *options) {
    if (INSIDE()) return CALL(uv_spawn)(uv, handle, options);
    uv_process_options_t ours = *options;
    ours.exit_cb = on_exit_of;
    struct wait wait;
    bool waits = in_callback && begin_wait(&wait, __func__, __builtin_return_address(0));
    int answer = REALLY(CALL(uv_spawn)(uv, handle, &ours));
    if (waits) end_wait(&wait, __func__, __builtin_return_address(0));
    lock();
    struct object *object = made(uv, handle, "process", true);
    if (object) object->callback = (void *)options->exit_cb;
    name_callback(object, (void *)options->exit_cb, OWN, "exit");
    for (int at = 0; at < options->stdio_count; at++)
        if (options->stdio[at].flags & UV_CREATE_PIPE) settle(find(options->stdio[at].data.stream));
    unlock();
    return answer;
}
