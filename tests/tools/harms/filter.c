/* A filter of system calls that ends who asks for another one than it knows (SECCOMP_RET_KILL_PROCESS):
 *
 *   filter one [TURNS]      process_vm_readv ends it
 *   filter some [TURNS]     what isn't in a list of what libuv and this program ask for
 *   filter first [TURNS]    the same, from before its first loop
 *
 * Status 55 at its end. */
#include <errno.h>
#include <linux/audit.h>
#include <linux/filter.h>
#include <linux/seccomp.h>
#include <stddef.h>
#include <stdlib.h>
#include <string.h>
#include <sys/prctl.h>
#include <sys/syscall.h>
#include <time.h>
#include <unistd.h>
#include <uv.h>

static const int KNOWN[] = {
    SYS_read, SYS_write, SYS_close, SYS_epoll_wait, SYS_epoll_pwait, SYS_epoll_ctl, SYS_epoll_create1, SYS_eventfd2, SYS_pipe2, SYS_futex, SYS_brk,
    SYS_mmap, SYS_munmap, SYS_mprotect, SYS_rt_sigreturn, SYS_rt_sigaction, SYS_rt_sigprocmask, SYS_clone, SYS_clone3, SYS_set_robust_list, SYS_rseq,
    SYS_exit, SYS_exit_group, SYS_madvise, SYS_prctl, SYS_fcntl, SYS_ioctl, SYS_getrandom, SYS_prlimit64,
    SYS_sched_yield, /* (the loop, while another thread is about to wake it) */
};

static uv_idle_t idle;
static uv_timer_t beat;
static uv_work_t work;
static int turns = 60000, works;

static void load(int some) {
    struct sock_filter rules[80];
    int count = 0;
    rules[count++] = (struct sock_filter)BPF_STMT(BPF_LD | BPF_W | BPF_ABS, offsetof(struct seccomp_data, nr));
    if (some) {
        for (size_t at = 0; at < sizeof KNOWN / sizeof *KNOWN; at++) {
            rules[count++] = (struct sock_filter)BPF_JUMP(BPF_JMP | BPF_JEQ | BPF_K, (unsigned)KNOWN[at], 0, 1);
            rules[count++] = (struct sock_filter)BPF_STMT(BPF_RET | BPF_K, SECCOMP_RET_ALLOW);
        }
        /* (the clocks of which the C library has no page) */
        rules[count++] = (struct sock_filter)BPF_JUMP(BPF_JMP | BPF_JEQ | BPF_K, SYS_clock_gettime, 0, 3);
        rules[count++] = (struct sock_filter)BPF_STMT(BPF_LD | BPF_W | BPF_ABS, offsetof(struct seccomp_data, args[0]));
        rules[count++] = (struct sock_filter)BPF_JUMP(BPF_JMP | BPF_JGE | BPF_K, CLOCK_PROCESS_CPUTIME_ID, 1, 0);
        rules[count++] = (struct sock_filter)BPF_STMT(BPF_RET | BPF_K, SECCOMP_RET_ALLOW);
    } else {
        rules[count++] = (struct sock_filter)BPF_JUMP(BPF_JMP | BPF_JEQ | BPF_K, SYS_process_vm_readv, 1, 0);
        rules[count++] = (struct sock_filter)BPF_STMT(BPF_RET | BPF_K, SECCOMP_RET_ALLOW);
    }
    rules[count++] = (struct sock_filter)BPF_STMT(BPF_RET | BPF_K, SECCOMP_RET_KILL_PROCESS);
    struct sock_fprog filter = {.len = (unsigned short)count, .filter = rules};
    if (prctl(PR_SET_NO_NEW_PRIVS, 1, 0, 0, 0) || prctl(PR_SET_SECCOMP, SECCOMP_MODE_FILTER, &filter)) exit(77);
}

/* (by the loop's clock, which is no call of the system) */
static void burn(uint64_t ms) {
    uint64_t end = uv_hrtime() + ms * 1000000;
    while (uv_hrtime() < end) continue;
}

static void do_work(uv_work_t *request) {
    (void)request;
    burn(5);
}

static void on_worked(uv_work_t *request, int status) {
    (void)request, (void)status;
    works = 0;
}

static void on_beat(uv_timer_t *timer) {
    (void)timer;
}

static void on_idle(uv_idle_t *handle) {
    if (turns % 10000 == 0) burn(15);
    if (turns % 20000 == 0 && !works) works = 1, uv_queue_work(handle->loop, &work, do_work, on_worked);
    if (--turns > 0) return;
    uv_close((uv_handle_t *)handle, NULL);
    uv_close((uv_handle_t *)&beat, NULL);
}

int main(int count, char **words) {
    const char *how = count > 1 ? words[1] : "some";
    uv_loop_t loop;
    if (count > 2) turns = atoi(words[2]);
    if (strcmp(how, "first") == 0) load(1);
    uv_loop_init(&loop);
    uv_idle_init(&loop, &idle);
    uv_timer_init(&loop, &beat);
    uv_idle_start(&idle, on_idle);
    uv_timer_start(&beat, on_beat, 1, 1);
    if (strcmp(how, "first") != 0) {
        turns += 10;
        for (int at = 0; at < 10; at++) uv_run(&loop, UV_RUN_ONCE);
        load(strcmp(how, "some") == 0);
    }
    uv_run(&loop, UV_RUN_DEFAULT);
    return uv_loop_close(&loop) ? 1 : 55;
}
