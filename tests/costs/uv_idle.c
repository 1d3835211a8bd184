/* libuv's own loop over so many idle handles, each called so often, for what a callback costs there beside a step of ours: no line, no record.
 * Only what it calls of libuv is declared here, so that it needs libuv.so.1 alone (Debian: libuv1), and not its headers.
 *
 *   cc -O2 -o uv_idle tests/costs/uv_idle.c -l:libuv.so.1 && ./uv_idle HANDLES TIMES */
#include <stddef.h>
#include <stdlib.h>

enum { UV_IDLE = 6, UV_RUN_DEFAULT = 0 };
size_t uv_loop_size(void);
size_t uv_handle_size(int type);
int uv_loop_init(void *loop);
int uv_idle_init(void *loop, void *handle);
int uv_idle_start(void *handle, void (*call)(void *handle));
int uv_run(void *loop, int mode);
void uv_stop(void *loop);

static void *loop;
static long left;

static void called(void *handle) {
    (void)handle;
    if (--left == 0) uv_stop(loop);
}

int main(int count, char **words) {
    if (count != 3) return 2;
    long handles = atol(words[1]);
    left = handles * atol(words[2]);
    if (!(loop = malloc(uv_loop_size())) || uv_loop_init(loop)) return 4;
    for (long n = 0; n < handles; n++) {
        void *handle = malloc(uv_handle_size(UV_IDLE));
        if (!handle || uv_idle_init(loop, handle) || uv_idle_start(handle, called)) return 4;
    }
    uv_run(loop, UV_RUN_DEFAULT);
    return 0;
}
