/* Requests of the thread pool: work, files, names and random bytes. */
#define _GNU_SOURCE
#include "recorder.h"

#include <stddef.h>
#include <string.h>

REAL(uv_cancel)
REAL(uv_fs_get_result)
REAL(uv_mutex_unlock)
REAL(uv_queue_work)

/* ---- a request that is queued again while it is under way
 *
 * libuv forbids that, and mostly survives it. Then it has several objects: a worker takes the first one that none has, and an after callback
 * is that of the first one that is through. */

static bool is_pooled(const struct object *object) {
    return object->pooled;
}

static bool is_free(const struct object *object) {
    return object->pooled && !object->taken;
}

static bool is_through(const struct object *object) {
    return object->pooled && object->through;
}

static struct object *first(const void *request, bool (*is)(const struct object *)) {
    struct object *found = NULL;
    for (struct object *it = find(request); it; it = earlier(it))
        if (is(it)) found = it;
    return found;
}

/* A request that is queued while the lock is held: a worker that is quicker writes its line behind. */
static struct object *queue(uv_loop_t *uv, void *request, void *callback, void *work) {
    struct object *object = put(loop_of(uv), request);
    if (!object) return NULL;
    write_workers();
    note_thread(object->loop, object->id);
    struct object *before = first(request, is_pooled);
    if (before) write_line(object->loop, 'Q', "%d %d", object->id, before->id);
    object->pooled = true;
    object->callback = callback;
    object->second = work;
    return object;
}

static int queued(struct object *object, const char *kind, size_t size, int answer) {
    if (object && answer == 0) {
        write_made(object, "queue", kind);
        /* (the loop's time is that of its last look, and a long callback may ask for it late) */
        if (is_behind(object->loop)) write_line(object->loop, 'q', "%d", object->id);
        object->size = (int)size;
        object->kind = kind;
        name_place(object);
        note_javascript(object->loop, object->id);
        name_callback(object, object->second, OWN, "work");
        name_callback(object, object->callback, AFTER, "after");
    } else if (object) {
        drop(object);
    }
    unlock();
    return answer;
}

/* What an after callback needs: the request's memory may be another one's behind it. */
struct after {
    struct loop *loop;
    void *callback;
    int id;
};

static struct after begin_after(void *request, bool cancelled) {
    lock();
    struct object *object = first(request, is_through);
    if (!object) object = first(request, is_pooled);
    if (!object) {
        unlock();
        return (struct after){0};
    }
    struct after after = {object->loop, object->callback, object->id};
    settle_all(after.loop, NULL);
    after.loop->begun++;
    write_line(after.loop, 'B', "after %d %s", after.id, cancelled ? "ECANCELED" : "ok");
    drop(object);
    unlock();
    return after;
}

static void end_after(struct after after) {
    if (!after.loop) return;
    lock();
    write_end(after.loop, after.id);
    unlock();
}

/* A worker takes it: what is to be done, by the program's function or by libuv's own. */
struct work {
    uv_work_cb program;
    void (*own)(struct uv__work *);
    int id;
};

/* Which thread runs the work of which request: one for each that ever ran any. (Read without the lock: who is at one's end is told of at worst.) */
static struct at_work {
    _Atomic pid_t thread;
    _Atomic int id;
} at_work[1024];
static __thread struct at_work *mine __attribute__((tls_model("initial-exec")));

int work_of(pid_t thread) {
    for (int at = 0; at < 1024 && at_work[at].thread; at++)
        if (at_work[at].thread == thread) return at_work[at].id;
    return -1;
}

/* (under the lock) */
static void note_work(int id) {
    for (int at = 0; !mine && at < 1024; at++)
        if (!at_work[at].thread) {
            mine = &at_work[at];
            mine->id = -1;
            mine->thread = who_writes();
        }
    if (mine) mine->id = id;
}

static struct work begin_work(void *request) {
    struct work work = {0};
    read_ahead(false);
    lock();
    struct object *object = first(request, is_free);
    if (!object) object = first(request, is_pooled);
    if (object) {
        work = (struct work){(uv_work_cb)object->second, object->own, object->id};
        object->taken = true;
        if (!forces()) {
            write_number(object->loop, 'T', object->id, "");
            in_callback = work.program && !work.own ? object->loop : NULL;
            in_work = object->id + 1;
            note_work(object->id);
        }
    }
    unlock();
    return work;
}

static void end_work(void *request, int id) {
    in_callback = NULL;
    in_work = 0;
    if (mine) mine->id = -1;
    read_ahead(true);
    lock();
    struct object *object = find(request);
    while (object && object->id != id) object = earlier(object);
    if (object) {
        object->through = true;
        write_number(object->loop, 'F', id, "");
    }
    unlock();
}

static void do_work(uv_work_t *request) {
    struct work work = begin_work(request);
    if (!work.program) return;
    PROGRAM(work.program(request));
    end_work(request, work.id);
}

/* ---- when a worker takes a request for files, names or random bytes, and when it is through
 *
 * What a worker does for it is a function of libuv's own, which stands in the request (uv/threadpool.h) from when it is queued. libuv queues it
 * under its pool's mutex, and gives that back by its public uv_mutex_unlock: before that another function is put in its place, so that no
 * worker is quicker. Where a libuv gives it back in another way, or asks the kernel in place of a worker, nothing is put there, and nothing
 * is known of the worker. */

static __thread struct {
    struct object *object;
    struct uv__work *request;
    void (*instead)(struct uv__work *);
} queueing;

void uv_mutex_unlock(uv_mutex_t *mutex) {
    struct uv__work *request = queueing.request;
    if (request && request->work != queueing.instead) {
        queueing.object->own = request->work;
        request->work = queueing.instead;
    }
    CALL(uv_mutex_unlock)(mutex);
    force_unlocked(mutex);
}

bool is_seen_work(const struct object *request) {
    return request->own || (request->kind && strcmp(request->kind, "work") == 0);
}

static void begin_queueing(struct object *object, struct uv__work *request, void (*instead)(struct uv__work *)) {
    if (!object) return;
    queueing.object = object;
    queueing.instead = instead;
    queueing.request = request;
}

static void do_own(void *request, struct uv__work *own) {
    struct work work = begin_work(request);
    if (!work.own) return;
    inside++;
    work.own(own);
    inside--;
    end_work(request, work.id);
}

#define OWN_WORK(NAME, TYPE)                                        \
    static void NAME(struct uv__work *own) {                        \
        do_own((char *)own - offsetof(TYPE, work_req), own);        \
    }

OWN_WORK(own_fs, uv_fs_t)
OWN_WORK(own_addrinfo, uv_getaddrinfo_t)
OWN_WORK(own_nameinfo, uv_getnameinfo_t)
OWN_WORK(own_random, uv_random_t)

/* The callbacks that libuv gets in place of the program's. */
#define AFTER(NAME, TYPE, PARAMETERS, WORDS, CANCELLED)                     \
    static void NAME PARAMETERS {                                           \
        struct after after = begin_after(request, CANCELLED);               \
        if (after.callback) PROGRAM(((TYPE)after.callback)WORDS);           \
        end_after(after);                                                   \
    }

AFTER(after_work, uv_after_work_cb, (uv_work_t * request, int status), (request, status), status == UV_ECANCELED)
AFTER(after_fs, uv_fs_cb, (uv_fs_t * request), (request), CALL(uv_fs_get_result)(request) == UV_ECANCELED)
AFTER(after_addrinfo, uv_getaddrinfo_cb, (uv_getaddrinfo_t * request, int status, struct addrinfo *found),
      (request, status, found), status == UV_EAI_CANCELED)
AFTER(after_nameinfo, uv_getnameinfo_cb, (uv_getnameinfo_t * request, int status, const char *host, const char *service),
      (request, status, host, service), status == UV_EAI_CANCELED)
AFTER(after_random, uv_random_cb, (uv_random_t * request, int status, void *bytes, size_t length),
      (request, status, bytes, length), status == UV_ECANCELED)

int uv_queue_work(uv_loop_t *uv, uv_work_t *request, uv_work_cb work, uv_after_work_cb callback) {
    if (INSIDE() || !work) return CALL(uv_queue_work)(uv, request, work, callback);
    /* (the first one makes the pool's threads) */
    struct wait wait;
    bool waits = in_callback && begin_wait(&wait, __func__, __builtin_return_address(0));
    lock();
    struct object *object = queue(uv, request, (void *)callback, (void *)work);
    int done = REALLY(CALL(uv_queue_work)(uv, request, object ? do_work : work, object ? after_work : callback));
    int answer = queued(object, "work", sizeof *request, done);
    if (waits) end_wait(&wait, __func__, __builtin_return_address(0));
    return answer;
}

int uv_cancel(uv_req_t *request) {
    if (INSIDE()) return CALL(uv_cancel)(request);
    touch(request);
    lock();
    int answer = REALLY(CALL(uv_cancel)(request));
    write_op(asked(request), "cancel", "", answer);
    unlock();
    return answer;
}

/* A function that takes a callback. WITH(x) are its words with x as the callback; without one it is done at once. */
#define POOLED(NAME, KIND, INSTEAD, OWN_WORK, CALLBACK, PARAMETERS, WITH)                \
    REAL(NAME)                                                                           \
    int NAME PARAMETERS {                                                                \
        struct wait wait;                                                                \
        if (INSIDE() || !callback || !uv) {                                              \
            bool waits = !callback && in_callback && begin_wait(&wait, __func__, __builtin_return_address(0));                  \
            int at_once = CALL(NAME) WITH(callback);                                     \
            if (waits) end_wait(&wait, #NAME, __builtin_return_address(0));              \
            return at_once;                                                              \
        }                                                                                \
        lock();                                                                          \
        struct object *object = queue(uv, request, (void *)callback, NULL);              \
        begin_queueing(object, &request->work_req, OWN_WORK);                            \
        int answer = REALLY(CALL(NAME) WITH((object ? INSTEAD : callback)));             \
        queueing.request = NULL;                                                         \
        return queued(object, KIND, sizeof *request, answer);                            \
    }

#define WITH(x) (uv, request, x, node, service, hints)
POOLED(uv_getaddrinfo, "addrinfo", after_addrinfo, own_addrinfo, uv_getaddrinfo_cb,
       (uv_loop_t * uv, uv_getaddrinfo_t *request, uv_getaddrinfo_cb callback, const char *node, const char *service,
        const struct addrinfo *hints), WITH)
#undef WITH
#define WITH(x) (uv, request, x, address, flags)
POOLED(uv_getnameinfo, "nameinfo", after_nameinfo, own_nameinfo, uv_getnameinfo_cb,
       (uv_loop_t * uv, uv_getnameinfo_t *request, uv_getnameinfo_cb callback, const struct sockaddr *address, int flags), WITH)
#undef WITH
#define WITH(x) (uv, request, bytes, length, flags, x)
POOLED(uv_random, "random", after_random, own_random, uv_random_cb,
       (uv_loop_t * uv, uv_random_t *request, void *bytes, size_t length, unsigned flags, uv_random_cb callback), WITH)
#undef WITH

/* ---- files: uv_fs_NAME(loop, request, words of its own, callback) */

#define FS(NAME, PARAMETERS, WORDS) \
    POOLED(uv_fs_##NAME, "fs_" #NAME, after_fs, own_fs, uv_fs_cb, PARAMETERS, WORDS)
#define P(...) (uv_loop_t * uv, uv_fs_t *request, __VA_ARGS__, uv_fs_cb callback)
#define W_PATH(x) (uv, request, path, x)
#define W_PATH_FLAGS(x) (uv, request, path, flags, x)
#define W_PATHS(x) (uv, request, path, target, x)
#define W_PATHS_FLAGS(x) (uv, request, path, target, flags, x)
#define W_FILE(x) (uv, request, file, x)
#define W_BYTES(x) (uv, request, file, buffers, count, offset, x)
#define W_TIMES(x) (uv, request, path, accessed, modified, x)
#define W_OWNER(x) (uv, request, path, user, group, x)
#define W_DIR(x) (uv, request, dir, x)

#define W_OPEN(x) (uv, request, path, flags, mode, x)
#define W_SIZE(x) (uv, request, file, offset, x)
#define W_SEND(x) (uv, request, out, in, offset, length, x)
#define W_MODE(x) (uv, request, file, mode, x)
#define W_FILE_TIMES(x) (uv, request, file, accessed, modified, x)
#define W_FILE_OWNER(x) (uv, request, file, user, group, x)

FS(close, P(uv_file file), W_FILE)
FS(open, P(const char *path, int flags, int mode), W_OPEN)
FS(read, P(uv_file file, const uv_buf_t buffers[], unsigned count, int64_t offset), W_BYTES)
FS(write, P(uv_file file, const uv_buf_t buffers[], unsigned count, int64_t offset), W_BYTES)
FS(unlink, P(const char *path), W_PATH)
FS(copyfile, P(const char *path, const char *target, int flags), W_PATHS_FLAGS)
FS(mkdir, P(const char *path, int flags), W_PATH_FLAGS)
FS(mkdtemp, P(const char *path), W_PATH)
FS(mkstemp, P(const char *path), W_PATH)
FS(rmdir, P(const char *path), W_PATH)
FS(scandir, P(const char *path, int flags), W_PATH_FLAGS)
FS(opendir, P(const char *path), W_PATH)
FS(readdir, P(uv_dir_t *dir), W_DIR)
FS(closedir, P(uv_dir_t *dir), W_DIR)
FS(stat, P(const char *path), W_PATH)
FS(fstat, P(uv_file file), W_FILE)
FS(lstat, P(const char *path), W_PATH)
FS(statfs, P(const char *path), W_PATH)
FS(rename, P(const char *path, const char *target), W_PATHS)
FS(fsync, P(uv_file file), W_FILE)
FS(fdatasync, P(uv_file file), W_FILE)
FS(ftruncate, P(uv_file file, int64_t offset), W_SIZE)
FS(sendfile, P(uv_file out, uv_file in, int64_t offset, size_t length), W_SEND)
FS(access, P(const char *path, int flags), W_PATH_FLAGS)
FS(chmod, P(const char *path, int flags), W_PATH_FLAGS)
FS(fchmod, P(uv_file file, int mode), W_MODE)
FS(utime, P(const char *path, double accessed, double modified), W_TIMES)
FS(lutime, P(const char *path, double accessed, double modified), W_TIMES)
FS(futime, P(uv_file file, double accessed, double modified), W_FILE_TIMES)
FS(link, P(const char *path, const char *target), W_PATHS)
FS(symlink, P(const char *path, const char *target, int flags), W_PATHS_FLAGS)
FS(readlink, P(const char *path), W_PATH)
FS(realpath, P(const char *path), W_PATH)
FS(chown, P(const char *path, uv_uid_t user, uv_gid_t group), W_OWNER)
FS(lchown, P(const char *path, uv_uid_t user, uv_gid_t group), W_OWNER)
FS(fchown, P(uv_file file, uv_uid_t user, uv_gid_t group), W_FILE_OWNER)
