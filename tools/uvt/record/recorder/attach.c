/* A program that runs already (./uvt attach, record/attach.py): a thread of its own is made in it, which loads the recorder and has it make ready
 * what is to be changed; then, while all threads stand still, bytes are written from outside, and nothing is called.
 *
 * Its libuv, also where that is a library of its own, gets jumps as one within a program does (hooks.c). Its loops, and the handles that there
 * are, were made before: as a loop polls it is found by the descriptor for which it asks, its handles are those that uv_walk tells, and the
 * callbacks that they hold become the recorder's. Requests that were under way by then are known to libuv alone, which counts them: a loop comes
 * into view at the first poll at which all that are under way were asked for since. The log begins there with all that it has, as a ring does
 * whose first windows are gone.
 *
 * To leave it, each loop gets its callbacks back as it polls, and the bytes are written back. */
#define _GNU_SOURCE
#include "javascript.h"

#include <link.h>
#include <stdio.h>
#include <stdlib.h>
#include <string.h>
#include <sys/uio.h>
#include <unistd.h>

REAL(uv_walk)
REAL(uv_is_active)
REAL(uv_is_closing)
REAL(uv_has_ref)
REAL(uv_handle_size)

/* ---- what libuv and the program call of the C library: their words for that lead to the recorder's functions */

static const char *const CALLED[] = {"epoll_wait", "epoll_pwait", "epoll_create1", "pthread_kill"};
/* (waits.c; of the program's own file alone) */
static const char *const WAITED[] = {
    "pthread_mutex_lock", "pthread_cond_wait", "pthread_cond_timedwait", "pthread_rwlock_rdlock", "pthread_rwlock_wrlock", "pthread_join", "sem_wait",
    "sem_timedwait", "nanosleep", "clock_nanosleep", "usleep", "sleep", "poll", "ppoll", "select", "read", "write", "pread", "pwrite", "readv",
    "writev", "fsync", "fdatasync", "flock", "connect", "accept", "recv", "send", "recvmsg", "sendmsg", "fread", "fwrite", "fgets", "fflush", "open",
    "open64", "getaddrinfo", "gethostbyname", "system", "pclose", "waitpid", "wait", "pthread_mutex_timedlock", "pthread_mutex_clocklock",
    "pthread_cond_clockwait", "mtx_lock", "cnd_wait", "thrd_join", "thrd_sleep", "sem_clockwait", "syscall", "pselect", "sigwait", "sigwaitinfo",
    "sigtimedwait", "msgrcv", "semop", "mq_receive", "lockf", "fcntl", "fcntl64", "pread64", "pwrite64", "sendfile", "sendfile64", "copy_file_range",
    "splice", "msync", "syncfs", "accept4", "recvfrom", "sendto", "__read_chk", "__recv_chk", "__poll_chk", "printf", "fprintf", "__printf_chk",
    "__fprintf_chk", "puts", "fputs", "fclose", "getline", "getdelim", "__getdelim", "getnameinfo", "popen", "wait3", "wait4", "waitid"};
enum { CALLED_COUNT = sizeof CALLED / sizeof *CALLED, WAITED_COUNT = sizeof WAITED / sizeof *WAITED, WORDS = 256 };

static struct word {
    void **at;
    void *instead;
} words[WORDS];
static int word_count;

static bool is_one_of(const char *name, const char *const *names, int count) {
    for (int at = 0; at < count; at++)
        if (strcmp(name, names[at]) == 0) return true;
    return false;
}

struct part {
    const ElfW(Rela) *from;
    size_t size;
};

static void look_at_relocations(struct part part, const ElfW(Sym) *symbols, const char *names, const struct dl_phdr_info *info, void *recorder) {
    const ElfW(Rela) *from = part.from;
    size_t size = part.size;
    for (const ElfW(Rela) *it = from; it && (size_t)((const char *)it - (const char *)from) < size; it++) {
        unsigned type = (unsigned)ELF64_R_TYPE(it->r_info);
        if (type != R_X86_64_JUMP_SLOT && type != R_X86_64_GLOB_DAT) continue;
        const char *name = names + symbols[ELF64_R_SYM(it->r_info)].st_name;
        if (!is_one_of(name, CALLED, CALLED_COUNT) && (*info->dlpi_name || !is_one_of(name, WAITED, WAITED_COUNT))) continue;
        void *instead = dlsym(recorder, name);
        if (instead && word_count < WORDS) words[word_count++] = (struct word){(void **)(info->dlpi_addr + it->r_offset), instead};
    }
}

static int look_at_file(struct dl_phdr_info *info, size_t size, void *recorder) {
    const ElfW(Dyn) *dynamic = NULL;
    const ElfW(Rela) *jumps = NULL, *others = NULL;
    const ElfW(Sym) *symbols = NULL;
    const char *names = NULL;
    size_t jumps_size = 0, others_size = 0;
    (void)size;
    for (int at = 0; at < info->dlpi_phnum; at++)
        if (info->dlpi_phdr[at].p_type == PT_DYNAMIC) dynamic = (const void *)(info->dlpi_addr + info->dlpi_phdr[at].p_vaddr);
    /* (the program's file, and the library: who else calls these is none of libuv's) */
    if (!dynamic || (*info->dlpi_name && !strstr(info->dlpi_name, "libuv"))) return 0;
    for (; dynamic->d_tag != DT_NULL; dynamic++) {
        uintptr_t word = dynamic->d_un.d_ptr;
        switch (dynamic->d_tag) {
        case DT_JMPREL: jumps = (const void *)word; break;
        case DT_PLTRELSZ: jumps_size = dynamic->d_un.d_val; break;
        case DT_RELA: others = (const void *)word; break;
        case DT_RELASZ: others_size = dynamic->d_un.d_val; break;
        case DT_SYMTAB: symbols = (const void *)word; break;
        case DT_STRTAB: names = (const void *)word; break;
        }
    }
    if (!symbols || !names) return 0;
    look_at_relocations((struct part){jumps, jumps_size}, symbols, names, info, recorder);
    look_at_relocations((struct part){others, others_size}, symbols, names, info, recorder);
    return 0;
}

/* ---- what is to be written */

/* Read and written from outside, by record/attach.py: of each size as it is there. */
struct patch {
    uint64_t at;
    uint32_t size, moved; /* so many bytes; and within so many from there on no thread may be, but at the first */
    uint8_t from[8], to[8];
};

static struct patch *patches;
static size_t patch_room;

__attribute__((visibility("default"))) struct {
    uint64_t ready; /* it can be done */
    uint64_t why; /* why it can't, a text */
    uint64_t patches, count; /* the last of them turns the recorder on */
    uint64_t on; /* they were put (from outside) */
    uint64_t leaving; /* callbacks are to be given back (from outside) */
    uint64_t left; /* so many loops have to do that still, once one has; UINT64_MAX before */
    uint64_t hooked, hooking; /* so many loops have the hook of their JavaScript; and how long that took at the most, in ms */
} uvt_attachment;

static void add_patch(void *at, const void *to, size_t size, size_t moved) {
    if (uvt_attachment.count == patch_room) {
        size_t room = patch_room ? 2 * patch_room : 512;
        struct patch *more = realloc(patches, room * sizeof *more);
        if (!more) return;
        patches = more;
        patch_room = room;
    }
    struct patch *patch = &patches[uvt_attachment.count++];
    *patch = (struct patch){.at = (uintptr_t)at, .size = (uint32_t)size, .moved = (uint32_t)moved};
    memcpy(patch->from, at, size);
    memcpy(patch->to, to, size);
}

static void add_jump(void *at, const uint8_t *jump, size_t size, size_t moved) {
    add_patch(at, jump, size, moved);
}

static const char *make_patches(void *recorder) {
    static const bool on = false;
    if (!knows_libuv()) hook_program();
    if (!knows_libuv()) hook_library();
    if (!knows_libuv()) return why_unseen() ? why_unseen() : "it has no libuv, or none whose functions have names";
    dl_iterate_phdr(look_at_file, recorder);
    if (!word_count) return "its libuv calls epoll in a way that can't be led elsewhere";
    each_jump(add_jump);
    for (int at = 0; at < word_count; at++) add_patch(words[at].at, &words[at].instead, sizeof words[at].instead, 0);
    add_patch(&off, &on, sizeof on, 0);
    uvt_attachment.patches = (uintptr_t)patches;
    return NULL;
}

/* ---- what is asked for */

static char *lines_asked; /* NAME=TEXT, a line each */

const char *asked_for(const char *name) {
    static char text[4096];
    size_t length = strlen(name);
    for (const char *it = lines_asked; it && *it; it += strcspn(it, "\n"), it += *it == '\n') {
        if (strncmp(it, name, length) != 0 || it[length] != '=') continue;
        snprintf(text, sizeof text, "%.*s", (int)strcspn(it + length + 1, "\n"), it + length + 1);
        return text;
    }
    return lines_asked ? NULL : getenv(name);
}

/* Makes ready what is to be written, in a thread of its own. A second time, where it was left. */
__attribute__((visibility("default"))) void uvt_attach(const char *lines) {
    Dl_info here;
    void *recorder = dladdr((void *)uvt_attach, &here) ? dlopen(here.dli_fname, RTLD_LAZY | RTLD_NOLOAD) : NULL;
    pthread_detach(pthread_self());
    free(lines_asked);
    lines_asked = strdup(lines);
    uvt_attachment.ready = uvt_attachment.why = uvt_attachment.leaving = 0;
    uvt_attachment.left = UINT64_MAX;
    attaches = true;
    forget_objects();
    set_up(asked_for("UVT_LOG"));
    const char *why = !recorder ? "the recorder doesn't find itself" : patches ? NULL : make_patches(recorder);
    uvt_attachment.why = (uintptr_t)why;
    uvt_attachment.ready = !why;
}

/* ---- a loop that was there */

static bool read_memory(void *to, uintptr_t from, size_t size) {
    struct iovec here = {to, size}, there = {(void *)from, size};
    return process_vm_readv(getpid(), &here, 1, &there, 1, 0) == (ssize_t)size;
}

static bool is_loop(uintptr_t address, int descriptor) {
    uv_loop_t loop;
    void *back;
    if (address % sizeof(void *) || address < (1 << 16) || !read_memory(&loop, address, sizeof loop)) return false;
    if (loop.backend_fd != descriptor || !loop.nwatchers || !loop.watchers) return false;
    uintptr_t queue = address + offsetof(uv_loop_t, handle_queue), first = (uintptr_t)((void **)&loop.handle_queue)[0];
    return read_memory(&back, first + sizeof(void *), sizeof back) && (uintptr_t)back == queue;
}

/* The loop that polls here: libuv has its address on the stack, or in a register that is kept there. */
static uv_loop_t *polling(int descriptor) {
    enum { DEEP = 48 << 10, PIECE = 4096 };
    uintptr_t piece[PIECE / sizeof(uintptr_t)];
    __builtin_unwind_init();
    /* (the registers lie between these words and the frame) */
    uintptr_t at = (uintptr_t)piece & ~(uintptr_t)(PIECE - 1), end = at + DEEP;
    for (; at < end && read_memory(piece, at, sizeof piece); at += PIECE)
        for (size_t it = 0; it < sizeof piece / sizeof *piece; it++)
            if (is_loop(piece[it], descriptor)) return (uv_loop_t *)piece[it];
    return NULL;
}

static const char *kind_of(uv_handle_type type) {
    switch (type) {
    case UV_TIMER: return "timer";
    case UV_IDLE: return "idle";
    case UV_PREPARE: return "prepare";
    case UV_CHECK: return "check";
    case UV_ASYNC: return "async";
    case UV_TCP: return "tcp";
    case UV_NAMED_PIPE: return "pipe";
    case UV_TTY: return "tty";
    case UV_UDP: return "udp";
    case UV_POLL: return "poll";
    case UV_SIGNAL: return "signal";
    case UV_PROCESS: return "process";
    case UV_FS_EVENT: return "fs_event";
    case UV_FS_POLL: return "fs_poll";
    default: return NULL;
    }
}

static void adopt_one(uv_handle_t *handle, void *word) {
    struct loop *loop = word;
    const char *kind = CALL(uv_is_closing)(handle) ? NULL : kind_of(handle->type);
    struct object *object = kind ? put(loop, handle) : NULL;
    if (!object) return;
    object->kind = kind;
    object->handle = true;
    object->watcher = handle->type != UV_TIMER && handle->type != UV_IDLE && handle->type != UV_PREPARE && handle->type != UV_CHECK
                      && handle->type != UV_ASYNC;
    object->type = handle->type;
    object->size = (int)CALL(uv_handle_size)(handle->type);
    object->active = CALL(uv_is_active)(handle);
    object->unreferenced = !CALL(uv_has_ref)(handle);
    watch_memory(object);
    if (object->watcher) adopt_watcher(object);
    else adopt_own(object);
}

/* (of the queues of idle, prepare and check handles the one that was started last is the first) */
static void adopt_order(void *const *queue, size_t offset) {
    for (void *const *it = queue[1]; it != queue; it = it[1]) {
        struct object *object = find((const char *)it - offset);
        if (object) object->order = next_start();
    }
}

static int requests;

static void count_request(struct object *object) {
    requests += object->pooled || object->owner;
}

/* (while a handle closes that was closed before, or callbacks are put off, something is to come that nobody knows) */
bool comes_into_view(struct loop *loop) {
    const void *queue = &loop->uv->pending_queue;
    if (!loop->unseen) return true;
    lock();
    requests = 0;
    each_object(loop, count_request);
    bool known = loop->uv->active_reqs.count == (unsigned)requests && *(void *const *)queue == queue && !loop->has_closing;
    loop->has_closing = false;
    if (known) {
        loop->unseen = false;
        loop->seen_from = clock_ms();
        /* (of a run that began before, nobody knows its mode) */
        if (!loop->adopted) write_run(loop);
    }
    unlock();
    return known;
}

bool hook_loop(struct loop *loop) {
    const char *script = asked_for("UVT_SCRIPT");
    loop->hooked = true;
    uint64_t begin = clock_ms();
    if (!script || !run_script(script)) return false;
    uint64_t took = clock_ms() - begin;
    if (took > uvt_attachment.hooking) uvt_attachment.hooking = took;
    __atomic_add_fetch(&uvt_attachment.hooked, 1, __ATOMIC_RELEASE);
    return true;
}

/* (looking for it takes some ms: where it wasn't found a few times it is none that can be) */
struct loop *adopt_loop(int descriptor) {
    enum { FEW = 3 };
    static __thread int in_vain;
    uv_loop_t *uv = in_vain < FEW ? polling(descriptor) : NULL;
    if (!uv) {
        in_vain++;
        return NULL;
    }
    lock();
    struct loop *loop = new_loop(uv);
    if (loop) {
        loop->unseen = true;
        loop->has_closing = uv->closing_handles != NULL;
        is_in_run(loop);
        inside++;
        CALL(uv_walk)(uv, adopt_one, loop);
        inside--;
        adopt_order((void *const *)&uv->idle_handles, offsetof(uv_idle_t, queue));
        adopt_order((void *const *)&uv->prepare_handles, offsetof(uv_prepare_t, queue));
        adopt_order((void *const *)&uv->check_handles, offsetof(uv_check_t, queue));
    }
    unlock();
    return loop;
}

/* ---- it is left */

static void return_one(struct object *object) {
    if (!object->handle) return;
    if (!object->written) {
        return_own(object);
        return_watcher(object);
    }
    if (!object->requests) drop(object);
}

static int running;

static void count_loop(struct loop *loop) {
    (void)loop;
    running++;
}

/* In the thread of the loop, as it polls: its handles have the program's callbacks again. (Requests that are under way have the recorder's, which
 * call those of the program, and nothing else.) */
bool is_left(struct loop *loop) {
    if (!__atomic_load_n(&uvt_attachment.leaving, __ATOMIC_ACQUIRE)) return false;
    end_looks();
    lock();
    each_object(loop, return_one);
    close_loop(loop);
    is_in_no_run();
    running = 0;
    each_loop(count_loop);
    if (!running) end_log();
    __atomic_store_n(&uvt_attachment.left, (uint64_t)running, __ATOMIC_RELEASE);
    unlock();
    return true;
}
