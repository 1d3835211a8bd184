/* What the files of a run that hangs have in common: force_hangs.c looks on, force_sleeps.c knows where each thread sleeps, and force_told.c says
 * who waits for whom. */
#ifndef FORCE_HANGS_H
#define FORCE_HANGS_H

#include "force.h"

#pragma GCC visibility push(hidden)

enum { THREADS = 256, PROCESSES = 64, CALLED = 4 };

enum sleep { AWAKE, AT_GATE, IN_POLL, GOES_ROUND, FOR_EVER, OUTSIDE };
struct thread {
    int process, id;
    enum sleep sleep;
    const char *what; /* from outside */
    uintptr_t futex;
    long value; /* what it awaits there */
};

/* (force_sleeps.c) What a thread waits for, by its call of the system. */
struct thread look_at(int process, int id);
/* How many threads it has, 0 where these are too many. */
int all_threads(struct thread *found);
/* The children, theirs too. -1: a thread of one of them is awake, or nobody knows. */
int sleeping_children(int *found);
/* Is there anybody else outside who could end it: a peer, a signal? */
bool has_outside(void);

/* (force_hangs.c) How many polls in a row had nothing else between them; and what was called in these. */
extern volatile long rounds;
extern void *volatile called_in[CALLED];
void pause_for(long ms);

/* (force_told.c) What is needed for that is there from here on. */
void begin_telling(void);
void tell_thread(const struct thread *all, int count, const struct thread *it);
void tell_process(int process);

#pragma GCC visibility pop

#endif
