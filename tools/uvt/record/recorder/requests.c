/* Requests of streams, whose callbacks count as the stream's: writes, connects, shutdowns, and datagrams that are sent. */
#define _GNU_SOURCE
#include "known.h"

struct request {
    struct object *stream;
    struct loop *loop;
    void *callback;
    int id;
};

/* Which request it is, behind its status. */
static void add_id(struct known *known, int id) {
    char digits[12];
    size_t count = 0, length = strlen(known->text);
    do digits[count++] = (char)('0' + id % 10);
    while (id /= 10);
    if (length + count + 3 > sizeof known->text) return;
    known->text[length++] = ' ';
    known->text[length++] = '%';
    while (count) known->text[length++] = digits[--count];
    known->text[length] = 0;
}

static struct request begin_request(void *address, const char *what, int status) {
    lock();
    struct object *object = find(address);
    /* (a request that was used again before it was done has one callback) */
    if (!object || !object->owner) {
        unlock();
        return (struct request){0};
    }
    struct request request = {object->owner, object->loop, object->callback, object->owner->id};
    struct known known = status_known(status);
    add_id(&known, object->id);
    drop(object);
    request.stream->requests--;
    enter(request.stream->address, what, known.text);
    unlock();
    return request;
}

#define REQUEST(NAME, WHAT, REQUEST_TYPE, TYPE)                                     \
    static void NAME(REQUEST_TYPE *address, int status) {                           \
        struct request request = begin_request(address, WHAT, status);              \
        if (!request.stream) return;                                                \
        void *stream = request.stream->address;                                     \
        if (request.callback) PROGRAM(((TYPE)request.callback)(address, status));   \
        leave(request.loop, stream, request.id);                                    \
    }

REQUEST(on_write, "write", uv_write_t, uv_write_cb)
REQUEST(on_connect, "connect", uv_connect_t, uv_connect_cb)
REQUEST(on_shutdown, "shutdown", uv_shutdown_t, uv_shutdown_cb)
REQUEST(on_send, "send", uv_udp_send_t, uv_udp_send_cb)

/* The request of a stream of the program; NULL if it is another one's. (The lock isn't held while it starts: a write to a stream that
 * blocks may wait for another thread.) */
static struct object *begin_start(void *request, void *handle, void *callback, enum role role, const char *what, uint64_t bytes) {
    lock();
    struct object *stream = asked(handle);
    struct object *object = stream ? put(stream->loop, request) : NULL;
    if (object) {
        object->owner = stream;
        object->callback = callback;
        object->bytes = bytes;
        name_callback(stream, callback, role, what);
        stream->requests++;
    }
    unlock();
    return object;
}

static int end_start(struct object *object, const char *what, int answer) {
    lock();
    struct object *stream = object->owner;
    if (answer == 0) {
        write_line(stream->loop, 'G', "%d %d %s %u", object->id, stream->id, what, object->bytes);
    } else {
        stream->requests--;
        drop(object);
    }
    settle(stream);
    unlock();
    return answer;
}

static uint64_t total(const uv_buf_t buffers[], unsigned count) {
    uint64_t bytes = 0;
    for (unsigned at = 0; at < count; at++) bytes += buffers[at].len;
    return bytes;
}

#define SENDS(NAME, ROLE, WHAT, BYTES, INSTEAD, PARAMETERS, WITH)                     \
    REAL(NAME)                                                                        \
    int NAME PARAMETERS {                                                             \
        struct object *object = INSIDE() ? NULL : begin_start(request, handle, (void *)callback, ROLE, WHAT, BYTES); \
        if (!object) return CALL(NAME) WITH(callback);                                \
        return end_start(object, WHAT, REALLY(CALL(NAME) WITH(INSTEAD)));             \
    }

#define W_WRITE(x) (request, handle, buffers, count, x)
#define W_WRITE2(x) (request, handle, buffers, count, sent, x)
#define W_SHUTDOWN(x) (request, handle, x)
#define W_CONNECT(x) (request, handle, address, x)
#define W_SEND(x) (request, handle, buffers, count, address, x)
SENDS(uv_write, WRITE, "write", total(buffers, count), on_write,
      (uv_write_t * request, uv_stream_t *handle, const uv_buf_t buffers[], unsigned count, uv_write_cb callback),
      W_WRITE)
SENDS(uv_write2, WRITE, "write", total(buffers, count), on_write,
      (uv_write_t * request, uv_stream_t *handle, const uv_buf_t buffers[], unsigned count, uv_stream_t *sent, uv_write_cb callback),
      W_WRITE2)
SENDS(uv_shutdown, SHUTDOWN, "shutdown", 0, on_shutdown, (uv_shutdown_t * request, uv_stream_t *handle, uv_shutdown_cb callback), W_SHUTDOWN)
SENDS(uv_tcp_connect, CONNECT, "connect", 0, on_connect,
      (uv_connect_t * request, uv_tcp_t *handle, const struct sockaddr *address, uv_connect_cb callback), W_CONNECT)
SENDS(uv_udp_send, WRITE, "send", total(buffers, count), on_send,
      (uv_udp_send_t * request, uv_udp_t *handle, const uv_buf_t buffers[], unsigned count, const struct sockaddr *address,
       uv_udp_send_cb callback), W_SEND)

/* (from 1.46 on) */
int uv_pipe_connect2(uv_connect_t *request, uv_pipe_t *handle, const char *name, size_t length, unsigned flags, uv_connect_cb callback);
#define W_CONNECT2(x) (request, handle, name, length, flags, x)
SENDS(uv_pipe_connect2, CONNECT, "connect", 0, on_connect,
      (uv_connect_t * request, uv_pipe_t *handle, const char *name, size_t length, unsigned flags, uv_connect_cb callback), W_CONNECT2)

REAL(uv_pipe_connect)
void uv_pipe_connect(uv_connect_t *request, uv_pipe_t *handle, const char *name, uv_connect_cb callback) {
    struct object *object = INSIDE() ? NULL : begin_start(request, handle, (void *)callback, CONNECT, "connect", 0);
    if (!object) {
        CALL(uv_pipe_connect)(request, handle, name, callback);
        return;
    }
    inside++;
    CALL(uv_pipe_connect)(request, handle, name, on_connect);
    inside--;
    end_start(object, "connect", 0);
}
