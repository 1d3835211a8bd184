/* Two jobs of one file: it is packed, which is quick, and sent, which takes long. Whoever is through last ought to free it. */
#include <stdio.h>
#include <stdlib.h>
#include <string.h>
#include <uv.h>
struct file { char bytes[64]; };
static struct file *file;
static uv_work_t pack, upload;
static void do_pack(uv_work_t *r) { uv_sleep(2); }
static void do_upload(uv_work_t *r) { uv_sleep(30); }
static void packed(uv_work_t *r, int status) { file->bytes[0] = 'p'; }
static void uploaded(uv_work_t *r, int status) { printf("%c\n", file->bytes[0]); free(file); }
int main(void) {
    uv_loop_t *loop = uv_default_loop();
    file = calloc(1, sizeof *file);
    uv_queue_work(loop, &pack, do_pack, packed);
    uv_queue_work(loop, &upload, do_upload, uploaded);
    return uv_run(loop, UV_RUN_DEFAULT);
}
