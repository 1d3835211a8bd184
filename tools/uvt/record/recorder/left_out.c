/* The real functions of a libuv within a program that its linker has left out, since the program doesn't ask for them, but the recorder does. */
#include "hooks.h"

#include <string.h>

/* By the header. (The bits are libuv's own, of all of its versions 1.20 and later.) */
enum { IS_CLOSING = 1, IS_CLOSED = 2, IS_ACTIVE = 4, HAS_REF = 8 };

static uint64_t own_now(const uv_loop_t *loop) {
    return loop->time;
}

static int own_backend_fd(const uv_loop_t *loop) {
    return loop->backend_fd;
}

/* (nobody knows; it is asked of a poll that doesn't wait) */
static int own_backend_timeout(const uv_loop_t *loop) {
    (void)loop;
    return 0;
}

static int own_is_closing(const uv_handle_t *handle) {
    return (handle->flags & (IS_CLOSING | IS_CLOSED)) != 0;
}

static int own_is_active(const uv_handle_t *handle) {
    return (handle->flags & IS_ACTIVE) != 0;
}

static int own_has_ref(const uv_handle_t *handle) {
    return (handle->flags & HAS_REF) != 0;
}

static uv_handle_type own_handle_get_type(const uv_handle_t *handle) {
    return handle->type;
}

static size_t own_handle_size(uv_handle_type type) {
    switch (type) {
#define SIZE(name, word) \
    case UV_##name: return sizeof(uv_##word##_t);
        UV_HANDLE_TYPE_MAP(SIZE)
#undef SIZE
    default: return 0;
    }
}

static uint64_t own_timer_get_repeat(const uv_timer_t *timer) {
    return timer->repeat;
}

static uint64_t own_timer_get_due_in(const uv_timer_t *timer) {
    return timer->loop->time >= timer->timeout ? 0 : timer->timeout - timer->loop->time;
}

static ssize_t own_fs_get_result(const uv_fs_t *request) {
    return request->result;
}

static const char *own_err_name(int code) {
    switch (code) {
#define NAME(name, text) \
    case UV_##name: return #name;
        UV_ERRNO_MAP(NAME)
#undef NAME
    default: return "EUNKNOWN";
    }
}

#define WORD(x) WORD_OF(x)
#define WORD_OF(x) #x

static const char *own_version_string(void) {
    return WORD(UV_VERSION_MAJOR) "." WORD(UV_VERSION_MINOR) "." WORD(UV_VERSION_PATCH);
}

void *left_out(const char *name) {
#define TRY(word) \
    if (strcmp(name, "uv_" #word) == 0) return (void *)own_##word;
    TRY(now) TRY(backend_fd) TRY(backend_timeout)
    TRY(is_closing) TRY(is_active) TRY(has_ref) TRY(handle_get_type) TRY(handle_size)
    TRY(timer_get_repeat) TRY(timer_get_due_in) TRY(fs_get_result) TRY(err_name) TRY(version_string)
#undef TRY
    return NULL;
}
