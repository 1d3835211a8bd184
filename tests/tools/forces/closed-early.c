/* A file's request and a timer: the timer gives up and frees what the request's callback uses, long behind it by itself. */
#include <fcntl.h>
#include <stdlib.h>
#include <uv.h>
struct job { uv_fs_t open, stat, close; int file; char name[16]; };
static struct job *job;
static uv_timer_t limit;
static void on_close(uv_fs_t *r) { uv_fs_req_cleanup(r); free(job); job = NULL; }
static void on_stat(uv_fs_t *r) { job->name[0] = 's'; uv_fs_req_cleanup(r); }
static void on_open(uv_fs_t *r) {
    job->file = (int)r->result;
    uv_fs_req_cleanup(r);
    /* (close is thought to be behind stat, since it was asked for behind it) */
    uv_fs_stat(r->loop, &job->stat, "/etc/passwd", on_stat);
    uv_fs_close(r->loop, &job->close, job->file, on_close);
}
int main(void) {
    uv_loop_t *l = uv_default_loop();
    job = calloc(1, sizeof *job);
    uv_fs_open(l, &job->open, "/etc/passwd", O_RDONLY, 0, on_open);
    uv_run(l, UV_RUN_DEFAULT);
    return 0;
}
