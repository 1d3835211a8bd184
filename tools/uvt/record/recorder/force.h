/* What the files of a forced order have in common: force.c goes along the session, force_shown.c has what the program does beside it, force_gates.c
 * holds the program's threads (force_pool.c, force_sends.c), and force_random.c chooses where there is no session. The names are the library's
 * own: a program that has the same ones keeps them. */
#ifndef FORCE_H
#define FORCE_H

#include "recorder.h"

#include <signal.h>
#include <sys/epoll.h>
#include <time.h>

#pragma GCC visibility push(hidden)

/* ---- the schedule (force.c) */

/* TICK .. CANCEL come from outside; SECTION and SILENT are what the loop does and nobody sees; the others the program shows. */
enum type { TICK, TAKE, FINISH, SEND, CANCEL, SECTION, SILENT, CALL_ON, CALL_AFTER, CALL_CLOSED, OP, RUN, END, POLL };

struct item {
    enum type type;
    bool is_io; /* of a callback: it is a step `io NAME` */
    bool of_platform; /* of an op: it is in a callback of node's platform */
    int name, step;
    long number; /* of a tick, the worker of a take or finish, the timeout of a poll (-1: infinite) */
    char *word, *rest, *answer, *text;
};

struct name {
    char *text;
    int id; /* of its object, -1 where it has none */
    void *address;
    const char *kind;
    int ahead; /* so many sends were let through before the leader came to their steps */
};

/* An op of the log, cut: WORD %ID REST = ANSWER. */
struct shown {
    char word[64], rest[256], answer[64];
    int id;
};

enum state { NOT_FORCING, FORCING, FREE };
extern volatile enum state state;
extern struct item *items;
extern int item_count, cursor;
extern int last_shown; /* the last item at which somebody could look: an op, a callback, a send */
extern struct name *names;
extern int name_count;
extern struct loop *forced; /* the loop of the session */
extern int depth; /* callbacks of the program under way */
extern bool early, behind_poll;

const char *name_of(int at);
int name_by_id(int id);
/* Is it a handle of node's own, as these are named? Of its platform's V8 asks when it likes: as its threads are through, or garbage is collected. */
#define PLATFORM "perisolateplatformdata"
bool is_nodes(int name, const char *handle);
/* The handle of this name, where it is that of node's platform. */
struct object *platform_of(int name);
const struct item *at_cursor(void);
/* (with the gate's mutex) The send of this name that comes in front of all that the program shows next; NULL where there is none. */
const struct item *next_send(int name);
bool is_outside(const struct item *item);
/* The item at the cursor has come. */
void step_done(void);
/* It is the session's last step: that is said before it is done. */
bool says_last(const struct item *item);
/* Does what comes from outside, up to the next thing that is none of that. With `through`: up to the next thing that the program shows. */
void advance(bool through);
void look_at_clock(void);
void depart_for_good(const char *what, const struct item *it);
struct shown read_shown(const char *words);
/* A line that says that a worker took it. (The worker itself writes none: its work may begin later.) */
void write_taken(int id);

/* ---- what is said, and the time (force_said.c) */

/* How far it has come, for who looks from outside. */
struct page {
    int steps, departures, done, free; /* of the session; of these; all of it has come; nothing is forced any more */
    int hangs; /* 1: nothing moves any more; 2: and nothing could; 3: nothing but timers */
    int early; /* work begins where it is taken */
};
extern struct page *page;
extern int said; /* the file */
extern bool stops;
extern uint64_t began, moved; /* the clock where it began, in ns; and how far it has moved since, in ms */
extern uint64_t freed_at; /* and since when nothing is forced any more */

void say(const char *format, ...);
void depart(const char *format, ...);
uint64_t real_ns(clockid_t id);
uint64_t virtual_ns(void);
void take_nap(void);
void stop_here(void);
/* Nothing is forced from here on. */
void set_free(const char *why);

/* ---- the clock, and who waits until a time (force_waits.c) */

void begin_clock(void);
/* This thread has done something else than to look at the clock. */
void new_reads(void);
/* So much time has gone by for this thread alone. */
void force_slept(uint64_t ns);
extern volatile int leader_late; /* how many of the leader's waits until a time have run out */
extern volatile int napping; /* how many threads are in a sleep that takes no time */

/* ---- gates (force_gates.c) */

/* In naps: how long a gate is closed; however busy the machine is; where the leader waits; and where something else can be tried first. */
enum { PATIENCE = 300, AT_MOST = 1000, BLOCKED = 300, SOON = 20, QUICKLY = 10, IN_VAIN = 4 };
extern pthread_mutex_t gate;
extern pthread_cond_t changed;
extern long progress; /* grows with each step: a gate that waits long without it opens */
extern int patience;
extern int leader_id;
extern int leads; /* the leader does what the session has: else it is in the program's code, or in libuv's */

int own_id(void);
bool is_leader(void);
void wait_a_little(void);
char state_in(int process, int thread);
char state_of(int thread);
bool is_awake(int thread);
bool somebody_runs(void);
bool somebody_can_come(void);
void come_to_rest(void);
void come_to_gate(void);
void leave_gate(void);

/* One wait of the leader's. */
struct stay {
    long seen;
    int waited, naps;
    bool for_comer; /* for who isn't at its gate yet */
};
bool stays_on(struct stay *stay);
/* (with no lock of ours) What it waited for is done: it takes back what it has given up for that. */
void end_waits(void);

#define WAIT_AS(CONDITION, FOR_COMER)                                                     \
    ({                                                                                    \
        struct stay stay = {.seen = progress, .for_comer = FOR_COMER};                    \
        while (state == FORCING && !(CONDITION) && stays_on(&stay)) continue;             \
        (CONDITION);                                                                      \
    })

/* (with the gate's mutex) the leader waits: true where CONDITION came; false where it didn't for long, or nothing is forced any more */
#define WAIT(CONDITION) WAIT_AS(CONDITION, false)
/* The same for a thread that is to come to its gate: it isn't waited for long where each other one stands at a gate, or sleeps until it is woken. */
#define WAIT_FOR_COMER(CONDITION) WAIT_AS(CONDITION, true)

/* (with the gate's mutex) another thread waits, as long as the leader may come to it: where the program's own code has it wait for
 * something (a semaphore, a lock, the end of a thread), nothing that is held at a gate would ever come. False then, the sooner where it waits with
 * no time limit. It may wait for a thread that runs: as long as any does, that isn't counted, or not before AT_MOST. */
#define WAIT_FOR_LEADER(CONDITION)                                          \
    ({                                                                      \
        long seen = progress;                                               \
        int waited = 0, naps = 0, late = leader_late;                       \
        come_to_gate();                                                     \
        while (state == FORCING && !(CONDITION) && waited < BLOCKED && naps < AT_MOST) { \
            wait_a_little();                                                \
            bool moves = seen != progress || leads || is_awake(leader_id);  \
            if (moves) waited = naps = 0;                                   \
            if (seen != progress || leads) seen = progress, late = leader_late; \
            if (leader_late - late >= IN_VAIN) waited = BLOCKED;            \
            else if (!moves && somebody_runs()) naps++;                     \
            else if (!moves) waited += is_no_help(leader_id) ? QUICKLY : 1; \
        }                                                                   \
        leave_gate();                                                       \
        waited < BLOCKED && naps < AT_MOST;                                 \
    })

/* ---- Python's lock (force_python.c) */

/* This thread gives it up, where it has it: what `take_interpreter` gets, else NULL. (With no lock of ours) */
void *give_interpreter(void);
void take_interpreter(void *given);

/* ---- workers (force_pool.c), and threads that send (force_sends.c) */

/* AT_LOCK: its work has a lock, and is about to take another one. */
enum place { STARTING, AT_TAKE, TAKING, TAKEN, RUNNING, AT_LOCK, AT_FINISH, FINISHING, ASLEEP };

struct worker {
    enum place place;
    long number; /* that of the session, while it has a request */
    int name, thread;
    bool may_take, may_run, may_finish;
    int locks; /* how many its work has */
};

struct sender {
    struct sender *next;
    int name;
    bool may_send, last;
};

extern struct worker pool[];
extern __thread struct worker *me; /* this thread, NULL where it is none */
extern int pool_count;
extern const struct worker *waits_for; /* the leader, for this one's finish */
extern struct sender *senders;
extern long sent; /* how many sends were done that waited at a gate. (A thread may be gone, or send again, as soon as it has sent) */

/* A send of V8's threads that is kept back: its handle, NULL where none is. No thread waits for it. */
extern struct object *volatile held_send;
void let_held_go(struct object *object);

struct worker *worker_at(enum place place);
struct worker *worker_of(long number);
struct sender *sender_of(int name);

/* ---- the poll (force_poll.c is that of a session) and an order at random (force_random.c) */

extern bool at_random;
void begin_random(uint64_t number, int jumps, uint64_t until);
void maybe_choose(void);
/* How many requests no worker has yet. (At random; else nobody knows: -1.) */
int how_many_wait(void);
void random_event(char type, const char *words);
bool poll_at_random(int descriptor, struct epoll_event *events, int room, int timeout, int *got);

/* ---- a run that hangs (force_hangs.c) */

extern int watch_id; /* the thread that looks on */
extern volatile bool idle_poll; /* the loop waits with no time limit, and nothing that is known could come */
void begin_watch(void);
/* A line of the forced loop's; and has it been called by nothing but its timers for so long that each poll takes a nap? */
void look_for_rounds(char type, const char *words);
bool goes_round(void);
/* Does it sleep until somebody wakes it, with no time limit? Or is it gone, or the one that asks (it made the loop, and another one ran it)? */
bool is_no_help(int thread);

#pragma GCC visibility pop

#endif
