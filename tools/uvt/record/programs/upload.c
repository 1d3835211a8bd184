/* A file is packed, which is quick, and sent, which takes long. Whoever is through last is to free it: here that is the sending, always. With
 * -DCOUNTED it is counted who is through. */
#include <stdio.h>
#include <stdlib.h>
#include <uv.h>

struct file {
    char state;
    int users;
};

static struct file *file;
static uv_work_t pack, upload;

static void leave(struct file *it) {
#ifdef COUNTED
    if (--it->users > 0) return;
#endif
    free(it);
}

static void do_pack(uv_work_t *request) {
    uv_sleep(2);
}

static void do_upload(uv_work_t *request) {
    uv_sleep(500);
}

static void packed(uv_work_t *request, int status) {
    file->state = 'p';
#ifdef COUNTED
    leave(file);
#endif
}

static void uploaded(uv_work_t *request, int status) {
    printf("sent, packed before: %s\n", file->state == 'p' ? "yes" : "no");
    leave(file);
}

int main(void) {
    uv_loop_t *loop = uv_default_loop();
    file = calloc(1, sizeof *file);
    file->users = 2;
    uv_queue_work(loop, &pack, do_pack, packed);
    uv_queue_work(loop, &upload, do_upload, uploaded);
    return uv_run(loop, UV_RUN_DEFAULT);
}
