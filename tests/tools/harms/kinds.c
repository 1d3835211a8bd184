/* Kinds of program that a recorder may harm: kinds KIND. Each has a timer each millisecond and some work of the pool, and does what its name says in
 * the timer's third callback. What it prints and its status are the same with the recorder as without it. */
#define _GNU_SOURCE
#include <fcntl.h>
#include <pthread.h>
#include <setjmp.h>
#include <signal.h>
#include <stdio.h>
#include <stdlib.h>
#include <string.h>
#include <sys/resource.h>
#include <sys/time.h>
#include <sys/wait.h>
#include <unistd.h>
#include <uv.h>

static uv_timer_t beat;
static uv_async_t async;
static uv_work_t works[50];
static int beats, worked, wanted;
static volatile sig_atomic_t caught;
static sigjmp_buf back;
static char *self;

static void on_caught(int number) {
    caught = number;
}

static void on_jump(int number) {
    siglongjmp(back, number);
}

static void on_segv(int number, siginfo_t *info, void *context) {
    (void)number, (void)context;
    printf("address %p\n", info->si_addr);
    fflush(stdout);
    _exit(44);
}

static void do_work(uv_work_t *request) {
    (void)request;
}

static void on_worked(uv_work_t *request, int status) {
    (void)request;
    worked += status == 0;
    if (worked == wanted) printf("worked %d\n", worked);
}

static void on_async(uv_async_t *handle) {
    (void)handle;
}

static void *send_often(void *none) {
    (void)none;
    for (int at = 0; at < 100; at++) uv_async_send(&async);
    return NULL;
}

static void on_walked(uv_handle_t *handle, void *none) {
    (void)none;
    if (!uv_is_closing(handle)) uv_close(handle, NULL);
}

static void on_child(uv_timer_t *timer) {
    uv_close((uv_handle_t *)timer, NULL);
}

static int run_in_child(void) {
    uv_loop_t loop;
    uv_timer_t timer;
    uv_loop_init(&loop);
    uv_timer_init(&loop, &timer);
    uv_timer_start(&timer, on_child, 2, 0);
    uv_run(&loop, UV_RUN_DEFAULT);
    return uv_loop_close(&loop) ? 1 : 7;
}

static void limit(int what, rlim_t most) {
    setrlimit(what, &(struct rlimit){most, most});
}

static void wait_for(pid_t child) {
    int status = 0;
    if (child > 0) waitpid(child, &status, 0);
    printf("child %d\n", WIFEXITED(status) ? WEXITSTATUS(status) : -WTERMSIG(status));
    fflush(stdout);
}

static int is(const char *kind, const char *name) {
    return strcmp(kind, name) == 0;
}

/* (kinds that end the program, or not) */
static void end(const char *kind) {
    if (is(kind, "segv")) {
        sigaction(SIGSEGV, &(struct sigaction){.sa_sigaction = on_segv, .sa_flags = SA_SIGINFO}, NULL);
        *(volatile int *)16 = 1;
    }
    if (is(kind, "abort")) abort();
    if (is(kind, "exit")) exit(42);
    if (is(kind, "_exit")) _exit(43);
    if (is(kind, "kill")) raise(SIGKILL);
    if (is(kind, "null")) *(volatile int *)0 = 1;
    if (is(kind, "leave")) pthread_exit(NULL);
    if (is(kind, "daemon")) {
        pid_t child = fork();
        if (child == 0) setsid(), chdir("/"), _exit(8);
        wait_for(child);
    }
}

static void signals(const char *kind) {
    if (is(kind, "trap")) signal(SIGTRAP, on_caught), raise(SIGTRAP);
    if (is(kind, "urgent")) signal(SIGURG, on_caught), raise(SIGURG);
    if (is(kind, "prof")) {
        signal(SIGPROF, on_caught);
        setitimer(ITIMER_PROF, &(struct itimerval){{0, 1000}, {0, 1000}}, NULL);
        while (!caught) continue;
    }
    if (is(kind, "jump")) {
        signal(SIGUSR1, on_jump);
        if (sigsetjmp(back, 1) == 0) raise(SIGUSR1);
        else caught = SIGUSR1;
    }
    if (caught) printf("caught %d\n", (int)caught);
}

static void processes(const char *kind) {
    if (is(kind, "fork")) {
        fflush(stdout);
        pid_t child = fork();
        if (child == 0) _exit(run_in_child());
        wait_for(child);
    }
    if (is(kind, "vfork")) {
        pid_t child = vfork();
        if (child == 0) execl("/bin/true", "true", (char *)NULL), _exit(9);
        wait_for(child);
    }
    if (is(kind, "system")) clearenv(), printf("system %d\n", system("exit 3") >> 8);
    if (is(kind, "exec")) fflush(stdout), execl(self, self, "plain", (char *)NULL);
    if (is(kind, "setuid")) printf("setuid %d\n", setuid(65534) || getuid() != 65534);
    if (is(kind, "chdir")) printf("chdir %d\n", chdir("/"));
}

static void limits(const char *kind) {
    /* (as daemons do, those of the loop left out) */
    if (is(kind, "closes"))
        for (int file = 64; file < 1024; file++) close(file);
    if (is(kind, "fsize")) limit(RLIMIT_FSIZE, 0);
    if (is(kind, "files")) {
        limit(RLIMIT_NOFILE, 24);
        int count = 0;
        while (open("/dev/null", O_RDONLY | O_CLOEXEC) >= 0) count++;
        printf("files %d\n", count > 0);
        for (int file = 23; count > 0; count--) close(file--);
    }
    if (is(kind, "memory")) limit(RLIMIT_AS, 1000 << 20), printf("memory %d\n", malloc((size_t)4 << 30) == NULL);
    if (is(kind, "requests"))
        for (wanted = 0; wanted < 50; wanted++) uv_queue_work(beat.loop, &works[wanted], do_work, on_worked);
    if (is(kind, "threads")) {
        pthread_t all[64];
        for (int at = 0; at < 64; at++) pthread_create(&all[at], NULL, send_often, NULL);
        for (int at = 0; at < 64; at++) pthread_join(all[at], NULL);
        printf("threads\n");
    }
}

static void on_beat(uv_timer_t *timer) {
    const char *kind = timer->data;
    beats++;
    if (beats == 3) signals(kind), processes(kind), limits(kind), end(kind);
    if (beats < 6) return;
    setitimer(ITIMER_PROF, &(struct itimerval){{0, 0}, {0, 0}}, NULL);
    uv_walk(timer->loop, on_walked, NULL);
}

int main(int count, char **words) {
    uv_loop_t *loop = uv_default_loop();
    if (count < 2) return 2;
    self = words[0];
    uv_async_init(loop, &async, on_async);
    uv_timer_init(loop, &beat);
    beat.data = words[1];
    uv_timer_start(&beat, on_beat, 1, 1);
    uv_run(loop, UV_RUN_DEFAULT);
    printf("end %d\n", uv_loop_close(loop));
    return is(words[1], "plain") ? 5 : 0;
}
