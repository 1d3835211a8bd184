/* All that a loop can have, at random: storm [SEED [ACTS]]. Streams, datagrams, signals and children beside requests, timers, idle, prepare,
 * check and async handles, and two other threads that send; each callback may do something more, and some work for a while. */
#include <pthread.h>
#include <signal.h>
#include <stdbool.h>
#include <stdlib.h>
#include <unistd.h>
#include <uv.h>

enum { MANY = 4, THREADS = 2, SENDS = 60, ENDS = 300, BEGIN = 10, RUNS = 30 };

static uv_loop_t *loop;
static uv_check_t check;
static uv_prepare_t prepare;
static uv_idle_t idle;
static uv_async_t asyncs[MANY];
static uv_timer_t timers[MANY], end;
static uv_tcp_t server;
static uv_udp_t udp;
static uv_signal_t usr1;
static struct sockaddr_in server_address, udp_address;
static unsigned seed = 1;
static int acts = 400;
static bool over;
static char room[65536];

static unsigned up_to(unsigned count) {
    return (unsigned)rand_r(&seed) % count;
}

static void work_a_while(void) {
    uint64_t until = uv_hrtime() + (up_to(12) ? 0 : (up_to(4) + 1) * 500000);
    while (uv_hrtime() < until) continue;
}

/* ---- what a callback may do */

static void act(void);

static void act_or_not(unsigned one_of) {
    work_a_while();
    if (up_to(one_of) == 0) act();
}

static void on_freed(uv_handle_t *handle) {
    free(handle);
}

static void give_room(uv_handle_t *handle, size_t size, uv_buf_t *bytes) {
    *bytes = uv_buf_init(room, sizeof room);
}

static void on_written(uv_write_t *request, int status) {
    free(request);
    work_a_while();
}

static void write_some(uv_stream_t *stream) {
    uv_write_t *request = malloc(sizeof *request);
    uv_buf_t bytes = uv_buf_init("storming", 1 + up_to(8));
    uv_write(request, stream, &bytes, 1, on_written);
}

static void on_read(uv_stream_t *stream, ssize_t length, const uv_buf_t *bytes) {
    if (length >= 0) act_or_not(3);
    bool closes = length < 0 || over || up_to(5) == 0;
    if (closes && !uv_is_closing((uv_handle_t *)stream)) uv_close((uv_handle_t *)stream, on_freed);
    else if (!closes) write_some(stream);
}

static void on_connection(uv_stream_t *stream, int status) {
    uv_tcp_t *peer = malloc(sizeof *peer);
    uv_tcp_init(loop, peer);
    uv_accept(stream, (uv_stream_t *)peer);
    uv_read_start((uv_stream_t *)peer, give_room, on_read);
}

static void on_connected(uv_connect_t *request, int status) {
    uv_stream_t *stream = request->handle;
    free(request);
    if (status == 0) {
        uv_read_start(stream, give_room, on_read);
        write_some(stream);
    } else if (!uv_is_closing((uv_handle_t *)stream)) {
        uv_close((uv_handle_t *)stream, on_freed);
    }
}

static void connect_one(void) {
    uv_tcp_t *client = malloc(sizeof *client);
    uv_connect_t *request = malloc(sizeof *request);
    uv_tcp_init(loop, client);
    uv_tcp_connect(request, client, (struct sockaddr *)&server_address, on_connected);
}

static void on_sent(uv_udp_send_t *request, int status) {
    free(request);
    act_or_not(3);
}

static void send_one(void) {
    uv_udp_send_t *request = malloc(sizeof *request);
    uv_buf_t bytes = uv_buf_init("u", 1);
    uv_udp_send(request, &udp, &bytes, 1, (struct sockaddr *)&udp_address, on_sent);
}

static void on_received(uv_udp_t *handle, ssize_t length, const uv_buf_t *bytes, const struct sockaddr *from, unsigned flags) {
    if (from) act_or_not(3);
}

static void do_work(uv_work_t *request) {
    usleep((size_t)request / 64 % 1500);
}

static void on_worked(uv_work_t *request, int status) {
    free(request);
    act_or_not(2);
}

static void queue_one(void) {
    uv_work_t *request = malloc(sizeof *request);
    uv_queue_work(loop, request, do_work, on_worked);
    if (up_to(4) == 0) uv_cancel((uv_req_t *)request);
}

static void on_looked(uv_fs_t *request) {
    uv_fs_req_cleanup(request);
    free(request);
    act_or_not(2);
}

static void on_exited(uv_process_t *process, int64_t status, int number) {
    uv_close((uv_handle_t *)process, on_freed);
}

static void start_child(void) {
    uv_process_t *process = malloc(sizeof *process);
    char *words[] = {"/bin/true", NULL};
    uv_process_options_t options = {.file = words[0], .args = words, .exit_cb = on_exited};
    uv_spawn(loop, process, &options);
}

static void on_async(uv_async_t *handle) {
    act_or_not(2);
}

static void on_timer(uv_timer_t *timer) {
    act_or_not(1);
}

static void on_signal(uv_signal_t *handle, int number) {
    act_or_not(2);
}

static void on_check(uv_check_t *handle) {
    act_or_not(6);
    if (up_to(20) == 0) uv_check_stop(handle);
}

static void on_prepare(uv_prepare_t *handle) {
    act_or_not(6);
    if (up_to(20) == 0) uv_prepare_stop(handle);
}

static void on_idle(uv_idle_t *handle) {
    if (up_to(4) == 0) uv_idle_stop(handle);
}

static void act(void) {
    if (over || acts-- <= 0) return;
    switch (up_to(16)) {
    case 0: case 1: connect_one(); break;
    case 2: case 3: queue_one(); break;
    case 4: uv_fs_stat(loop, malloc(sizeof(uv_fs_t)), "/", on_looked); break;
    case 5: case 6: uv_async_send(&asyncs[up_to(MANY)]); break;
    case 7: case 8: uv_timer_start(&timers[up_to(MANY)], on_timer, up_to(6), up_to(3) ? 0 : 3 + up_to(5)); break;
    case 9: uv_check_start(&check, on_check); break;
    case 10: uv_prepare_start(&prepare, on_prepare); break;
    case 11: uv_idle_start(&idle, on_idle); break;
    case 12: send_one(); break;
    case 13: kill(getpid(), SIGUSR1); break;
    case 14: uv_timer_stop(&timers[up_to(MANY)]); break;
    default: if (up_to(4)) uv_update_time(loop); else start_child();
    }
}

/* ---- begin and end */

static void *send_all(void *word) {
    unsigned mine = seed * 7 + (unsigned)(size_t)word;
    for (int at = 0; at < SENDS; at++) {
        usleep((unsigned)rand_r(&mine) % 3000);
        uv_async_send(&asyncs[(unsigned)rand_r(&mine) % MANY]);
    }
    return NULL;
}

static bool is_own(const uv_handle_t *handle) {
    const void *const own[] = {&check, &prepare, &idle, &server, &udp, &usr1, &end};
    bool found = (void *)handle >= (void *)asyncs && (void *)handle < (void *)(asyncs + MANY);
    found |= (void *)handle >= (void *)timers && (void *)handle < (void *)(timers + MANY);
    for (size_t at = 0; at < sizeof own / sizeof *own; at++) found |= handle == own[at];
    return found;
}

/* (a child is closed as it ends) */
static void close_one(uv_handle_t *handle, void *none) {
    if (!uv_is_closing(handle) && handle->type != UV_PROCESS) uv_close(handle, is_own(handle) ? NULL : on_freed);
}

static void on_end(uv_timer_t *timer) {
    over = true;
    uv_walk(loop, close_one, NULL);
}

static void make_all(void) {
    int length = sizeof server_address;
    for (int at = 0; at < MANY; at++) {
        uv_async_init(loop, &asyncs[at], on_async);
        uv_timer_init(loop, &timers[at]);
        if (at % 2) uv_unref((uv_handle_t *)&asyncs[at]);
    }
    uv_check_init(loop, &check);
    uv_prepare_init(loop, &prepare);
    uv_idle_init(loop, &idle);
    uv_signal_init(loop, &usr1);
    uv_signal_start(&usr1, on_signal, SIGUSR1);
    uv_unref((uv_handle_t *)&usr1);
    uv_ip4_addr("127.0.0.1", 0, &server_address);
    udp_address = server_address;
    uv_tcp_init(loop, &server);
    uv_tcp_bind(&server, (struct sockaddr *)&server_address, 0);
    uv_listen((uv_stream_t *)&server, 64, on_connection);
    uv_tcp_getsockname(&server, (struct sockaddr *)&server_address, &length);
    uv_udp_init(loop, &udp);
    uv_udp_bind(&udp, (struct sockaddr *)&udp_address, 0);
    length = sizeof udp_address;
    uv_udp_getsockname(&udp, (struct sockaddr *)&udp_address, &length);
    uv_udp_recv_start(&udp, give_room, on_received);
    uv_timer_init(loop, &end);
    uv_timer_start(&end, on_end, ENDS, 0);
}

int main(int count, char **words) {
    pthread_t threads[THREADS];
    if (count > 1) seed = (unsigned)atoi(words[1]);
    if (count > 2) acts = atoi(words[2]);
    loop = uv_default_loop();
    make_all();
    for (int at = 0; at < BEGIN; at++) act();
    for (size_t at = 0; at < THREADS; at++) pthread_create(&threads[at], NULL, send_all, (void *)at);
    for (unsigned runs = up_to(2) * RUNS; runs > 0; runs--) {
        uv_run(loop, up_to(2) ? UV_RUN_ONCE : UV_RUN_NOWAIT);
        usleep(up_to(500));
    }
    uv_run(loop, UV_RUN_DEFAULT);
    for (int at = 0; at < THREADS; at++) pthread_join(threads[at], NULL);
    return 0;
}
