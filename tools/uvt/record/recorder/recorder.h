/* A recorder of programs on libuv, for LD_PRELOAD.
 *
 * It stands before libuv's public functions, calls them, and writes a line for each op, callback and poll. It decides
 * nothing: the program runs as it would. tools/uvt/uvt-record makes recordings of what it writes, and docs/RECORD.md says
 * what each line means.
 *
 * UVT_LOG=PREFIX LD_PRELOAD=recorder.so PROGRAM..   writes PREFIX.PID.log for each process that has a loop */
#ifndef RECORDER_H
#define RECORDER_H

#include "objects.h"

/* (a program may have functions of these names: it keeps its own, and so does the recorder) */
#pragma GCC visibility push(hidden)

/* ---- the lock (lock.c), the log's lines (log.c) and its file (window.c) */

extern bool off; /* nothing is recorded: no UVT_LOG, no room, or a child after fork */
extern bool filtered; /* the system is asked for nothing more (filter.c) */
void before_filter(void);

/* Around all that is asked of objects and written. */
void lock(void);
void unlock(void);
bool is_locked_here(void);
/* Of a child: its owner isn't there any more. */
void forget_lock(void);
/* `LOOP TYPE NOW ..`, and behind NOW the clock where a callback, a run or work begins or ends, somebody sends, or a request of a
 * stream begins (types B, E, R, T, F, S and G). At the end of an op, a send and a request stands the place that called it, and at that
 * of a callback or work that took long enough how long its thread was on the processor.
 * The format knows %d, %u (64 bits), %x (64 bits) and %s. */
void write_line(struct loop *loop, char type, const char *format, ...);
/* The lines that most logs are made of: a callback begins, or that of a close; it ends, or a poll begins; two numbers and a text. They take no
 * format. */
void write_begin(struct loop *loop, int id, const char *what, const char *known);
void write_closed(struct loop *loop, int id);
void write_number(struct loop *loop, char type, int number, const char *behind);
void write_pair(struct loop *loop, char type, int one, int other, const char *behind);
/* May a file have this size? (Past its limit the program would be ended by a signal.) */
bool may_grow_to(size_t size);
/* The clock, in ms. */
uint64_t clock_ms(void);
/* What is written now without a loop isn't kept for ever in a ring. */
extern __thread bool passing;
/* How many workers the pool has, by the environment as it is now; the line that says so where that isn't what the first line has. */
int workers(void);
void write_workers(void);
/* `LOOP O NOW WORD %ID REST = ANSWER`; nothing where there is no object. */
void write_op(struct object *object, const char *word, const char *rest, int answer);
/* `LOOP O NOW WORD %ID KIND = ok` */
void write_made(struct object *object, const char *word, const char *kind);
void write_start(struct object *timer, uint64_t timeout, uint64_t repeat, int answer);
const char *answer_text(int answer);

/* ---- what a callback waits for (waits.c), and where it is at (stacks.c) */

/* The loop whose callback or work is under way in this thread, and isn't in a call that waits. */
extern __thread struct loop *in_callback __attribute__((tls_model("initial-exec")));
/* Of a worker that has work of the program: one more than its number. */
extern __thread int in_work __attribute__((tls_model("initial-exec")));
/* (OWNER: who had the lock, `` where nobody had one, or that isn't known) */
void write_wait(struct loop *loop, const char *function, uint64_t ms, const char *owner);
struct wait {
    struct loop *loop;
    int work;
    uint64_t begin;
    pid_t owner; /* the thread that had the lock as this one began to wait for it, 0 if none is known; and the request whose work that ran, or -1 */
    int owner_work;
};
bool begin_wait(struct wait *wait, const char *function, const void *caller);
void end_wait(const struct wait *wait, const char *function, const void *caller);
/* Who had the lock as this wait began. */
void note_owner(struct wait *wait, pid_t thread);
/* Another one than libuv has waited for this child. */
void note_reaped(struct loop *loop, pid_t child, const void *caller);
pid_t reaped(pid_t child, const void *caller);
int really_lock(pthread_mutex_t *mutex);
/* The thread that has a lock, by the C library's own word: 0 where nobody has it, or where another library keeps that elsewhere. And who has the
 * recorder's own: so a thread has its number without a call of the system, which a filter may forbid. */
pid_t owner_of(const pthread_mutex_t *mutex);
pid_t who_writes(void);
/* The request whose work a thread runs, -1 if none. */
int work_of(pid_t thread);
/* The clock, in ms; and how long this thread had waited for a processor by then. As something begins its usage is read first: what it waits for a
 * processor in between is none of what takes long. */
uint64_t clock_ms(void);
uint64_t clock_behind(struct usage *usage);
uint64_t waited_by(uint64_t clock, bool anew);
/* As that was read last. */
uint64_t last_waited(void);
/* In front of the lock: what a worker's next line says of the thread, as work begins or ends. */
void read_ahead(bool ends);
struct usage usage_by(uint64_t clock, bool anew);
void put_off_stacks(void);
void no_stacks(void);
void forget_stacks(void);
/* In no thread any more. */
void stop_stacks(void);
void write_stacks(struct loop *loop);

/* ---- where a callback is at that doesn't end (now.c) */

void open_now(void);
void close_now(void);
void now_waits(const struct loop *loop, const char *function, const void *caller, uint64_t clock);
void now_waited(const struct loop *loop);
void now_looked(const struct loop *loop, const uintptr_t *at, int depth, uint64_t clock);

/* ---- a log that is a ring (ring.c) */

/* Reads the wish for one from the environment; is the log one; makes its files; and writes a line, or one to which others refer. */
void ask_for_ring(void);
bool keeps(void);
bool open_ring(const char *prefix);
bool write_ring(const char *text, size_t length);
bool write_words(const char *text, size_t length);
/* The number of its window, from 1 on, 0 where the log is no ring; how many bytes were written; and how many are kept. */
size_t ring_window(void);
uint64_t ring_bytes(void);
uint64_t ring_room(void);
/* So many bytes are to be kept at the least. */
void ring_needs(uint64_t bytes);
/* All of its windows are made and mapped: no further one is asked for, and nothing is kept apart. */
void ring_ahead(void);
/* Up to this clock something of this loop took so long: `callback`, a `timer` (the handle `id`) that was late by that, or a `poll` that ended so
 * late; `waited` ns of it the thread could run, and others had the processor (UNKNOWN: nobody knows). */
struct late {
    uint64_t clock, took, waited;
};
void note_late(const struct loop *loop, const char *what, int id, const struct late *late);
/* From how many ms on that is kept apart, 0: never; and does so, where one was noted a while ago. */
uint64_t minds_late(void);
void look_at_late(uint64_t clock);
/* How long its thread had waited for a processor by this clock; and for how long it has since `time`, as far as that is known. */
void note_share(struct loop *loop, uint64_t clock, uint64_t waited);
/* Notes it, where nothing was noted a little while before. */
void note_share_now(struct loop *loop);
uint64_t waited_since(const struct loop *loop, uint64_t time, uint64_t waited);

/* ---- the real functions (real.c) */

void *real(const char *name, void **kept);
/* Does libuv itself call the function that asks so? Its own calls of its public functions are no ops of the program. They
 * come from its text; or, as tail calls, while a real function is under way. */
bool is_from_libuv(const void *caller);
bool is_text_of_libuv(const void *caller);
/* The same; and where it doesn't, the function is kept as the one that the program called last in this thread. */
bool is_inside(const void *caller, const char *function);
extern __thread int inside;
extern __thread const char *called;
/* Where it was called; NULL from where a callback ends on. Lines of ops that follow say so. */
extern __thread const void *called_from;

/* More of libuv's text; and is any known? */
void add_text_of_libuv(uintptr_t from, uintptr_t to);
bool knows_libuv(void);
/* Is libuv loaded? (Where it isn't, it isn't loaded to know.) */
bool is_libuv_there(void);

#define REAL(name) static void *kept_##name;
/* (the one that was found, without a call) */
#define CALL(name) ((__typeof__(name) *)(__atomic_load_n(&kept_##name, __ATOMIC_ACQUIRE) ?: real(#name, &kept_##name)))
#define INSIDE() is_inside(__builtin_return_address(0), __func__)
#define REALLY(call)                 \
    ({                               \
        inside++;                    \
        __typeof__(call) got = call; \
        inside--;                    \
        got;                         \
    })

/* ---- a libuv that isn't a library of its own (hooks.c) */

/* Looks for one within the program; within the file whose code calls here. Where there is one, calls of its functions are calls of the
 * recorder's from then on. */
void hook_program(void);
void hook_caller(const void *caller);
bool has_own_libuv(void);
/* This place calls a function of libuv's. Where it lies in a library that takes libuv from elsewhere, of another version than the program's
 * own, the program is ended, and it is said why. */
void see_caller(const void *caller);
/* Its function of this name as it was; NULL if it has none. */
void *own_function(const char *name);
/* Calls of a function of it can't be seen, or (NULL) of none, and then nothing is recorded: a line behind the first one says why. */
void note_unseen(const char *function, const char *why);

/* The same of the library libuv. And the jumps, where they weren't put at once, since the program runs: a thread that is within the bytes that
 * were moved, and not at their first one, has to leave them before. */
void hook_library(void);
void each_jump(void (*take)(void *at, const uint8_t *jump, size_t size, size_t moved));

/* ---- a program that runs already (attach.c) */

extern bool attaches; /* it is one */
/* (process.c) False where the log's name is too long. */
bool set_up(const char *named);
/* What is asked for by this name: in its words, or in the environment. */
const char *asked_for(const char *name);
/* Why no libuv can be recorded; NULL where that isn't known. */
const char *why_unseen(void);
/* The loop that polls this descriptor in this thread, with its handles; NULL where it isn't found. And can it be recorded from here on? */
struct loop *adopt_loop(int descriptor);
bool comes_into_view(struct loop *loop);
/* Runs what is asked for, in a loop's thread that has JavaScript (evaluate.c). Was it run? */
bool run_script(const char *script);
bool hook_loop(struct loop *loop);
/* Is the program left, so that this loop isn't recorded any more? */
bool is_left(struct loop *loop);
/* The callbacks that a handle has become the recorder's; and those that are become the program's again. */
void adopt_own(struct object *handle);
void adopt_watcher(struct object *handle);
void return_own(struct object *handle);
void return_close(struct object *handle);
void return_watcher(struct object *handle);
uint64_t next_start(void);
/* This thread is in a run of this loop that began before; is in none any more; the line of a run that began since. */
void is_in_run(struct loop *loop);
void is_in_no_run(void);
void write_run(struct loop *loop);
/* All that is known of loops, and of places, is forgotten; nothing is recorded any more, and the files are closed. */
void forget_objects(void);
void end_log(void);
void end_ring(void);

/* ---- an order that is forced (force.c): a library of its own, compiled with FORCE. The recorder by itself has nothing of it */

struct sender;
struct epoll_event;
#ifdef FORCE
void force_loop(struct loop *loop);
bool forces(void);
void force_before(const char *function);
void force_event(struct loop *loop, char type, const char *words);
bool force_send(void *handle, struct sender **handed);
void force_sent(struct sender *sender);
/* Is the line that was shown last one of what isn't done yet? */
bool force_skips(void);
/* How many ms the timer of JavaScript with this number has in the session; as many as it asks for where that has none. */
int64_t force_delay(int64_t id, int64_t delay);
/* (with the lock) a send of V8's threads, which wait for nobody: true where it is kept back until its step comes */
bool force_hold(struct object *object);
/* (behind the line of the loop's own send to it) does the session have that send? */
bool force_sends(void);
uint64_t force_clock(uint64_t real_ms);
bool force_poll(struct loop *loop, int descriptor, struct epoll_event *events, int room, int timeout, int *got);
void force_unlocked(uv_mutex_t *mutex);
#else
static inline void force_loop(struct loop *loop) { (void)loop; }
static inline bool forces(void) { return false; }
static inline void force_before(const char *function) { (void)function; }
static inline void force_event(struct loop *loop, char type, const char *words) { (void)loop, (void)type, (void)words; }
static inline bool force_send(void *handle, struct sender **handed) { return (void)handle, (void)handed, false; }
static inline void force_sent(struct sender *sender) { (void)sender; }
static inline bool force_sends(void) { return true; }
static inline bool force_skips(void) { return false; }
static inline int64_t force_delay(int64_t id, int64_t delay) { return (void)id, delay; }
static inline bool force_hold(struct object *object) { return (void)object, false; }
static inline uint64_t force_clock(uint64_t real_ms) { return real_ms; }
static inline bool force_poll(struct loop *loop, int descriptor, struct epoll_event *events, int room, int timeout, int *got) {
    return (void)loop, (void)descriptor, (void)events, (void)room, (void)timeout, (void)got, false;
}
static inline void force_unlocked(uv_mutex_t *mutex) { (void)mutex; }
#endif
/* (sends.c) Is it the callback of V8's own handle? The send of one that `force_hold` has kept back, where its step is. */
bool is_nodes_own(void *callback);
void send_held(struct object *object, uint64_t thread);
/* The lock is given away for a while, however often this thread has it. */
int unlock_all(void);
void lock_again(int depth);
struct object *object_by_id(int id);
/* Do lines say when a worker takes this request, and when it is through? */
bool is_seen_work(const struct object *request);

/* ---- handles (handles.c), and the loops that they are of (loops.c) */

/* Around a handle's callback. `enter` answers its object, NULL if there is none. WHAT came, and what is known of it: how many bytes, an
 * error, ..; "" where that is nothing. */
struct object *enter(void *handle, const char *what, const char *known);
void leave(struct loop *loop, void *handle, int id);
/* What a line says of callbacks of I/O that libuv has put off to the section `pending`. */
const char *put_off(const struct loop *loop);
/* The line at which a callback ends. */
void write_end(struct loop *loop, int id);
/* The loop that this thread runs, or NULL. */
struct loop *running_here(void);
/* The op `init`, of a handle that was made. */
struct object *made(uv_loop_t *loop, void *handle, const char *kind, bool watcher);
/* Says whether a watcher is active, and whether it is referenced, where that has changed. */
void settle(struct object *watcher);
/* The same of all whose callback has just ended, except for the one whose next callback begins (NULL: for none). */
void settle_all(struct loop *loop, const struct object *but);

/* ---- the memory of handles (memory.c) */

/* A handle is one of those whose memory is looked at, and no more. */
void watch_memory(struct object *handle);
void leave_memory(struct object *handle);
/* Looks at some handles of the loop, where it hasn't done so in this millisecond. A line says of which the memory is something else. */
void look_at_memory(struct loop *loop);
/* A handle is made where another one is that wasn't closed: the same line of that one. */
void note_made_over(const uv_loop_t *uv, const void *address);

/* ---- interpreters (node.c, places.c, looks.c, script.c) */

int new_place_number(void);

/* What an interpreter has asked for, and is to come (alive.c): asked for (KIND FUNCTION PLACE MS); it is called, and that ends, or it is gone; all
 * of this by a line's words; and what there is of a loop is told again. */
void alive_new(const struct loop *loop, uint64_t id, const char *text);
void alive_was(const struct loop *loop, uint64_t id, const char *text, uint64_t clock, bool repeats);
void alive_run(uint64_t id, bool repeats);
void alive_end(uint64_t id, bool gone);
void alive_note(const struct loop *loop, const char *words);
void alive_closed(const struct loop *loop);
void tell_alive(struct loop *loop);
/* A line that says of which thread of node's a loop runs the JavaScript, and how far its own time begins behind that of node. */
void tell_node_thread(struct loop *loop);

/* A line that says where JavaScript asked for this object of the loop, if it is under way in this thread. */
bool is_behind(const struct loop *loop);
bool is_far_behind(const struct loop *loop);
void note_javascript(struct loop *loop, int id);
/* The line of a program in Lua that asks for requests of the pool just now, -1: none. */
extern __thread int asking_here;

/* How long the loop may wait, in ms, before the looks of this thread are to be written; -1: there are none, or no new ones. */
int wait_before_looks(struct loop *loop);
void write_looks_here(void);

/* Calls a callback of the program: what it asks of libuv are ops again. */
#define PROGRAM(call)           \
    do {                        \
        int outer = inside;     \
        inside = 0;             \
        call;                   \
        inside = outer;         \
    } while (0)

#pragma GCC visibility pop

#endif
