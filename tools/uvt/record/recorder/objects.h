/* Loops, handles and requests, as the recorder knows them. */
#ifndef OBJECTS_H
#define OBJECTS_H

#include <pthread.h>
#include <stdbool.h>
#include <stdint.h>
#include <uv.h>

#pragma GCC visibility push(hidden)

/* ---- what a thread had of the processor (usage.c): in ns, and how often */

#define UNKNOWN UINT64_MAX
struct usage {
    uint64_t processor, kernel; /* on it; in the kernel */
    uint64_t faults, disk; /* page faults without the disk, and with it */
    uint64_t gave, lost; /* how often it gave the processor away, and was pushed off it */
    uint64_t waited; /* how long it could run, and others had it; UNKNOWN where nobody knows */
};

/* ---- a loop, and a handle or a request (objects.c) */

/* Of so many callbacks that were the last ones it is known when they began and ended. */
enum { TIMES = 64, SHARES = 64 };

struct loop {
    uv_loop_t *uv; /* NULL once it is closed */
    struct loop *next; /* of those that are closed */
    int number;
    int objects; /* so many are its own */
    uint64_t base; /* the loop's time as it was first seen: times in the log count from there */
    int behind; /* how much later than that of the first loop, in ms */
    pthread_t thread; /* that of the last uv_run, or of its init */
    int running; /* how many uv_run are under way */
    bool waiting; /* for events, in a poll */
    bool adopted; /* its run began before the recorder came */
    bool unseen; /* it was there before, with something that nobody knows: nothing is written of it yet, */
    bool has_closing; /* also of handles that closed before */
    bool hooked; /* its JavaScript was looked for */
    bool has_javascript; /* the hook is in it: node's number of the thread, and how far behind the loop's time that of node begins */
    uint64_t javascript;
    int64_t node_behind;
    uint64_t seen_from; /* by the clock; of any other loop 0 */
    struct object *unsettled; /* watchers whose callback has just ended: see settle() */
    struct object *looked; /* one of its handles, which lie in a ring: the next one whose memory is looked at (memory.c) */
    uint64_t looked_at; /* the loop's time as that was done last */
    int looks; /* how often, up to FEW */
    size_t told_in; /* the window of the ring in which all of it was written down last, */
    uint64_t told_at, told_size, told_when; /* behind how many bytes, in how many, and at which time of the loop's */
    long lines, counted; /* of it in the log; and how many there were as all of it was last written down */
    uv_run_mode mode; /* of the uv_run that is under way */
    long begun, away; /* how many callbacks and runs have begun, and how many of them in no poll */
    struct times {
        long begun; /* which it is */
        uint64_t begin, end; /* by the clock; 0: not yet */
        struct usage usage; /* of its thread, as it begins */
    } times[TIMES];
    uint64_t early; /* the next callback began by this clock already: what is asked of the program in front of it took long; 0: it didn't */
    struct usage early_usage;
    struct poll {
        long begun, away; /* the same as libuv asked for events */
        int timeout, got; /* how long it waits, and how many events it got; negative where it was interrupted */
        size_t in; /* which window of the ring */
        bool in_vain; /* none of these is for anybody */
        int wait; /* how long the system is asked to wait */
        uint64_t clock, waited; /* as it began; and how long the thread had waited for a processor by then */
        uint64_t before;        /* of that since something was read last */
    } poll; /* the last time */
    struct share {
        uint64_t clock, waited; /* how long its thread had waited for a processor by then, in ns */
    } shares[SHARES]; /* where a ring is kept apart: the last ones, in the time of a run */
    unsigned shared; /* how many there were */
    uint64_t known_from; /* by the clock: the first one of all */
};

/* Which of its callbacks: a stream has several. */
enum role { OWN, CONNECTION, CONNECT, WRITE, SHUTDOWN, CLOSED, AFTER, ROLES };

struct object {
    struct object *next; /* of the same bucket, or of those that are free */
    void *address;
    struct loop *loop;
    int id;
    const char *kind; /* NULL of a request of a stream */
    uint64_t due; /* of a timer, as it was started last */
    uint64_t order; /* of an idle, prepare or check handle: the how-manieth start it was */
    bool handle;
    bool watcher; /* a handle of I/O, signals, files or processes */
    bool active; /* of a watcher, as the log has it: it is active, or a request of its own is under way */
    bool unreferenced; /* and it is unreferenced, and none is */
    int size; /* of its type: elements of an array lie so far apart */
    void *named[ROLES]; /* the callbacks that the log has of it */
    const char *whats[ROLES]; /* and what they are for */
    int requests; /* of a watcher: writes, connects, .. that are under way */
    uint64_t bytes; /* of such a request */
    void *callback;
    void *second; /* of a request: its work; of a stream: its connection callback */
    bool pooled, taken, through; /* a request that the pool has; a worker has taken it; and its work is done */
    void (*own)(struct uv__work *); /* of a request for files, names or random bytes: what libuv has a worker do */
    uv_close_cb closed;
    void *alloc; /* of a stream or a socket: where its bytes go */
    uv_handle_type type; /* of a handle */
    struct object *ring_next, *ring_before; /* of a handle: its loop's others */
    uint64_t whole; /* the loop's time as its memory was last seen to be that of such a handle */
    bool written; /* it is something else since then */
    struct object *owner; /* of a stream's request: the stream */
    struct object *next_unsettled;
    bool is_unsettled;
};

struct loop *loop_of(uv_loop_t *uv);
/* The loop's time as the first one was first seen, 0 where none was; and does it of each loop. */
uint64_t first_base(void);
void each_loop(void (*tell)(struct loop *));
struct loop *new_loop(uv_loop_t *uv);
void close_loop(struct loop *loop);
/* The last one that was made or asked for in this thread, NULL if there is none. */
struct loop *last_loop(void);
/* The last one that was put at this address, NULL if there is none; and the one before it. */
struct object *find(const void *address);
struct object *earlier(const struct object *object);
/* The same, of what the program has asked something of: where another thread than the loop's does that, a line says so. */
struct object *asked(const void *address);
/* Memory that is handed to libuv, in front of what libuv does with it: a sanitizer with which the program was built doesn't see into libuv. */
void touch(const void *address);
/* A line where another thread than the loop's asks something of a loop that runs, `id` -1 for the loop itself. */
void note_thread(struct loop *loop, int id);
struct object *put(struct loop *loop, void *address);
void drop(struct object *object);
void each(struct loop *loop, void (*tell)(struct object *));
/* (requests of streams, too; it may be dropped) */
void each_object(const struct loop *loop, void (*take)(struct object *));
int object_total(void);
/* This thread sends: it may be in a signal's handler. */
extern __thread bool sends_here;
/* The number of an address in a program's file: the first time a line says where it is. -1 for memory that is in none. */
int address_number(const void *address);
/* The number of a place in a function, by what comes behind its call. */
int call_number(const void *behind);
/* The program's own file: the system is asked once. */
const char *name_of_program(void);
/* Of the place with this number, from which libuv was called now: the number of the one that called its function, where that is known and is one
 * of the program's; of a call that waited (ALL) those of all that are on the stack. Answers how many there are (callers.c). */
enum { CALLERS = 24 };
int caller_numbers(bool all, int place, const void *from, int *found);
/* The places behind this one on this thread's stack, up to the loop's run; none where a stack can't be followed (stacks.c). */
int stack_behind(const void *from, uintptr_t *found, int most);
/* The lines that say where it lies, and which its callback is: `what` as in the line at which that begins. */
void name_place(struct object *object);
void name_callback(struct object *object, void *callback, enum role role, const char *what);
/* The same lines once more. */
void name_again(struct object *object);

#pragma GCC visibility pop

#endif
