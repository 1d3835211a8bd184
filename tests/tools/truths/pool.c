/* Four jobs of 200 ms hold the pool. A fifth job, a look at a file and a name that is looked up wait for them. */
#include "truth.h"
static uv_work_t hash[4], fifth;
static uv_fs_t status;
static uv_getaddrinfo_t lookup;
static void work_hash(uv_work_t *request) { works("hash", 200); }
static void work_fifth(uv_work_t *request) { works("fifth", 20); }
static void done(uv_work_t *request, int status) {}
static void on_status(uv_fs_t *request) { uv_fs_req_cleanup(request); }
static void on_lookup(uv_getaddrinfo_t *request, int status, struct addrinfo *found) { uv_freeaddrinfo(found); }
int main(void) {
    uv_loop_t *loop = uv_default_loop();
    for (int at = 0; at < 4; at++) uv_queue_work(loop, &hash[at], work_hash, done);
    uv_queue_work(loop, &fifth, work_fifth, done);
    uv_fs_stat(loop, &status, "/", on_status);
    uv_getaddrinfo(loop, &lookup, on_lookup, "127.0.0.1", NULL, NULL);
    return uv_run(loop, UV_RUN_DEFAULT);
}
