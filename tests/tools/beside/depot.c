/* A depot: each 4 ms a parcel comes by a socket, on_parcel reads it and works 1 ms; each eighth is packed in the pool (2 ms); a round each 30 ms.
 * base; gate: round 3 waits 50 ms for a semaphore that a thread posts; sort: each parcel from the 20th on takes 2 ms more in sort_rack;
 * pool: packing takes 12 ms, with one worker; audit: a timer more, and no round; hogs: as base, and three processes want the same processor. */
#define _GNU_SOURCE
#include <sched.h>
#include <semaphore.h>
#include <signal.h>
#include <pthread.h>
#include "../truths/truth.h"
enum { PARCELS = 60 };
static uv_pipe_t in, peer; static uv_timer_t sender, rounds, audit; static uv_work_t pack[PARCELS]; static int sent, got, packs, turns;
static sem_t gate; static const char *mode = "base"; static char room[64]; static uv_write_t writes[PARCELS]; static pid_t hogs[3];
static int is(const char *m) { return strcmp(mode, m) == 0; }
static void burn(uint64_t us) { uint64_t b = processor_ns(); while (processor_ns() - b < us * 1000) continue; }
__attribute__((noinline)) static void sort_rack(void) { burn(2000); }
static void *open_gate(void *a) { usleep(145000); sem_post(&gate); return a; }
static void do_pack(uv_work_t *w) { usleep(is("pool") ? 12000 : 2000); }
static void on_packed(uv_work_t *w, int s) {}
static void on_alloc(uv_handle_t *h, size_t n, uv_buf_t *b) { *b = uv_buf_init(room, 8); }
static void on_parcel(uv_stream_t *s, ssize_t n, const uv_buf_t *b) {
    if (n <= 0) return;
    int k = got++;
    burn(500);
    if (is("sort") && k >= 20) sort_rack();
    if (k % 8 == 0) uv_queue_work(s->loop, &pack[packs++], do_pack, on_packed);
    if (got == PARCELS) { uv_close((void *)&in, 0); uv_close((void *)&peer, 0); uv_close(is("audit") ? (void *)&audit : (void *)&rounds, 0); }
}
static void on_sent(uv_write_t *w, int s) {}
static void on_sender(uv_timer_t *t) {
    uv_buf_t b = uv_buf_init("parcel..", 8);
    uv_write(&writes[sent], (void *)&peer, &b, 1, on_sent);
    if (++sent == PARCELS) uv_close((void *)t, 0);
}
static void on_round(uv_timer_t *t) { if (++turns == 3 && is("gate")) sem_wait(&gate); }
static void on_audit(uv_timer_t *t) { burn(300); }
int main(int c, char **v) {
    if (c > 1) mode = v[1];
    int ends[2]; pthread_t p; cpu_set_t one;
    if (is("pool")) setenv("UV_THREADPOOL_SIZE", "1", 1);
    if (is("hogs")) {
        CPU_ZERO(&one); CPU_SET(3, &one); sched_setaffinity(0, sizeof one, &one);
        for (int i = 0; i < 3; i++) if ((hogs[i] = fork()) == 0) for (;;) continue;
    }
    sem_init(&gate, 0, 0); uv_socketpair(SOCK_STREAM, 0, ends, UV_NONBLOCK_PIPE, UV_NONBLOCK_PIPE);
    uv_loop_t *l = uv_default_loop();
    uv_pipe_init(l, &in, 0); uv_pipe_open(&in, ends[0]); uv_pipe_init(l, &peer, 0); uv_pipe_open(&peer, ends[1]);
    uv_timer_init(l, &sender); uv_timer_start(&sender, on_sender, 4, 4);
    if (is("audit")) { uv_timer_init(l, &audit); uv_timer_start(&audit, on_audit, 30, 30); }
    else { uv_timer_init(l, &rounds); uv_timer_start(&rounds, on_round, 30, 30); }
    uv_read_start((void *)&in, on_alloc, on_parcel);
    pthread_create(&p, 0, open_gate, 0);
    uv_run(l, 0);
    pthread_join(p, 0);
    for (int i = 0; i < 3; i++) if (hogs[i]) kill(hogs[i], SIGKILL);
    return 0;
}
