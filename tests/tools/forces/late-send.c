/* A send to an async handle whose memory is given back already: libuv looks at it, and no sanitizer sees into libuv. */
#include <stdlib.h>
#include <uv.h>
static void freed(uv_handle_t *h) { free(h); }
int main(void) {
    uv_loop_t *loop = uv_default_loop();
    uv_async_t *progress = malloc(sizeof *progress);
    uv_async_init(loop, progress, NULL);
    uv_close((uv_handle_t *)progress, freed);
    uv_run(loop, UV_RUN_DEFAULT);
    uv_async_send(progress);
    return 0;
}
