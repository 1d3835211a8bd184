// A script under way on the real library.
#ifndef RUN_H
#define RUN_H

#include <semaphore.h>
#include <setjmp.h>
#include <uv.h>

#include "script.h"

enum Kind { TIMER, IDLE, PREPARE, CHECK, ASYNC, IO, WORK };
enum Outcome { WAITING, RUNNING, DONE, CANCELLED };

// A handle or a request, with the slot that it has in the script's counting. It is kept until the script is over.
struct Handle {
    union {
        uv_handle_t handle;
        uv_timer_t timer;
        uv_idle_t idle;
        uv_prepare_t prepare;
        uv_check_t check;
        uv_async_t async;
        uv_poll_t poll;
        uv_work_t work;
    } is;
    enum Kind kind;
    enum Outcome outcome;
    int name;
    size_t slot;
    uint32_t generation;
    int ends[2];    // of a handle of I/O: its pipe, -1 once that is closed
    Handle *before; // the one that was made before it
};

enum Ending { ENDED = 1, BLOCKED, LIMITED, LOOP_CLOSED };

typedef struct {
    Script script;
    uv_loop_t *loop;
    FILE *output;
    jmp_buf ending;

    uint64_t clock; // ms
    uint64_t lines; // printed so far
    uint64_t looks; // at the clock, since the last line
    bool quiet;     // no step from outside is done

    Handle *last_made;
    uint32_t *generations;
    size_t *free_slots;
    size_t free_count, used_slots;

    int came[MOST_CAME]; // what the poll brings: names, or WAKE
    size_t came_count;

    Handle *running[1024]; // by worker
    size_t workers;
} Run;

extern Run run;

// outside.c: the lines, the clock, the poll, and the steps from outside
void print(const char *format, ...) __attribute__((format(printf, 1, 2)));
void watch(bool on); // whether the clock and the poll are ours
void do_due_steps(bool at_a_look);
struct epoll_event;
int look_for_events(int poll, struct epoll_event *events, int room);

// slots.c
Handle *make_handle(int name, enum Kind kind);
void free_slot(Handle *handle);
void clear_slots(void);

// ops.c
void do_op(const Op *op);
void call_handle(Handle *handle);
const char *send_to(Handle *handle);
const char *cancel_work(Handle *handle);
const char *word_of_kind(enum Kind kind);

// io.c
void open_io(Handle *handle);
void close_io(Handle *handle);
int start_io(Handle *handle);
int stop_io(Handle *handle);
void let_come(const Step *step); // in the poll under way, or the next one
void forget_what_came(void);
int look_for_what_came(int poll, struct epoll_event *events, int room);

// workers.c
bool take_work(size_t worker);
bool finish_work(size_t worker);
bool do_some_work(bool from_the_last);
void drain_pool(void);

#endif
