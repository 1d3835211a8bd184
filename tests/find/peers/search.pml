/* The program of search.c, as SPIN takes it: WORKERS, REQUESTS and SENDS are defined before it. Each process is one source of steps. */
#define DUE 5
#define NO 255
#define SLOTS (REQUESTS + 2)
mtype = { MAIN, ENTRY, FIRST, TIMERS, PENDING, IDLE, PREPARE, POLL, DONE, ASYNC, CHECK, CLOSING, ENDED };
mtype = { ABSENT, WAITING, RUNNING, FINISHED, GONE };

mtype place = MAIN;
byte line, body, deadline = NO, now, clock, sends = SENDS;
bool timer_made, timer_active, timer_ready, timer_closing, timer_closed;
bool async_made, async_pending, async_yet, async_closing, async_closed;
byte timer_calls, async_calls;
byte closing[2], closing_count, closing_yet[2], closing_yet_count;
mtype request[REQUESTS] = ABSENT;
byte running[WORKERS] = NO;
byte done[REQUESTS], done_count, done_yet[REQUESTS], done_yet_count, free_slots[SLOTS], free_count;
/* What a step reckons with, and what follows from the rest: no part of the state. */
hidden byte it, found, worker;
byte waiting_count, busy_count, open_count;

#define ASYNC_ACTIVE (async_made && !async_closing && !async_closed)
#define ACTIVE (timer_active || ASYNC_ACTIVE)
#define ALIVE (ACTIVE || open_count > 0 || closing_count > 0)
#define MAY_LEAVE (done_count > 0 || async_pending || (deadline != NO && deadline <= clock))

inline give_back(slot) {
  for (it : 1 .. free_count) { free_slots[free_count + 1 - it] = free_slots[free_count - it] }
  free_slots[0] = slot; free_count++
}

inline close_handle(slot) {
  closing[1] = closing[0]; closing[0] = slot; closing_count++
}

inline next_iteration() {
  if :: ALIVE -> place = PENDING :: else -> place = ENDED fi
}

active proctype Loop() {
  do
  :: d_step { place == MAIN && line == 0 -> timer_made = true; line++ }
  :: d_step { place == MAIN && line == 1 -> async_made = true; line++ }
  :: d_step { place == MAIN && line == 2 -> timer_active = true; line++ }
  :: d_step { place == MAIN && line >= 3 && line < 3 + REQUESTS -> request[line - 3] = WAITING; waiting_count++; open_count++; line++ }
  :: d_step { place == MAIN && line == 3 + REQUESTS -> now = clock; place = ENTRY; line++ }
  :: d_step { place == ENTRY -> place = FIRST }
  :: d_step { (place == FIRST || place == TIMERS) && body == 0 && timer_active && DUE <= now -> timer_active = false; timer_ready = true }
  :: d_step { (place == FIRST || place == TIMERS) && body == 0 && timer_ready -> timer_ready = false; timer_calls++; body = 1 }
  :: d_step { body == 1 -> timer_closing = true; close_handle(0); body = 2 }
  :: d_step { body == 2 -> async_closing = true; async_pending = false; close_handle(1); body = 0 }
  :: d_step { (place == FIRST || place == TIMERS) && body == 0 && !timer_ready && !(timer_active && DUE <= now) -> next_iteration() }
  :: d_step { place == PENDING -> place = IDLE }
  :: d_step { place == IDLE -> place = PREPARE }
  :: d_step { place == PREPARE ->
       place = POLL;
       if
       :: !(ACTIVE || open_count > 0) || closing_count > 0 -> deadline = now
       :: else -> if :: timer_active -> deadline = DUE :: else -> deadline = NO fi
       fi }
  :: d_step { place == POLL && MAY_LEAVE ->
       now = clock; deadline = NO; place = DONE; done_yet_count = done_count;
       for (it : 0 .. REQUESTS - 1) { done_yet[it] = done[it]; done[it] = 0 }
       done_count = 0 }
  :: d_step { place == DONE && done_yet_count > 0 ->
       found = done_yet[0];
       for (it : 1 .. REQUESTS - 1) { done_yet[it - 1] = done_yet[it] }
       done_yet[REQUESTS - 1] = 0; done_yet_count--;
       request[found] = GONE; open_count--;
       give_back(found + 2) }
  :: d_step { place == DONE && done_yet_count == 0 -> place = ASYNC; async_yet = ASYNC_ACTIVE }
  :: d_step { place == ASYNC && async_yet ->
       if :: async_pending -> async_calls++ :: else fi;
       async_yet = false; async_pending = false }
  :: d_step { place == ASYNC && !async_yet -> place = CHECK }
  :: d_step { place == CHECK ->
       for (it : 0 .. 1) { closing_yet[it] = closing[it]; closing[it] = 0 }
       closing_yet_count = closing_count; closing_count = 0; place = CLOSING }
  :: d_step { place == CLOSING && closing_yet_count > 0 ->
       found = closing_yet[0]; closing_yet[0] = closing_yet[1]; closing_yet[1] = 0; closing_yet_count--;
       if
       :: found == 0 -> timer_closed = true; timer_closing = false
       :: else -> async_closed = true; async_closing = false
       fi;
       give_back(found) }
  :: d_step { place == CLOSING && closing_yet_count == 0 -> now = clock; place = TIMERS }
  od
}

/* The idle worker of the least number takes the request that waits first. */
active proctype Taker() {
  do
  :: d_step { waiting_count > 0 && busy_count < WORKERS ->
       worker = NO; found = NO;
       for (it : 0 .. WORKERS - 1) { if :: worker == NO && running[it] == NO -> worker = it :: else fi }
       for (it : 0 .. REQUESTS - 1) { if :: found == NO && request[it] == WAITING -> found = it :: else fi }
       running[worker] = found; request[found] = RUNNING; waiting_count--; busy_count++ }
  od
}

active [WORKERS] proctype Worker() {
  do
  :: d_step { running[_pid - 2] != NO ->
       found = running[_pid - 2]; running[_pid - 2] = NO; busy_count--;
       request[found] = FINISHED; done[done_count] = found; done_count++ }
  od
}

active proctype Sender() {
  do
  :: d_step { sends > 0 && async_made && place != DONE && place != ASYNC && !async_closing ->
       sends--;
       if :: !async_closed -> async_pending = true :: else fi }
  od
}

active proctype Clock() {
  do
  :: d_step { place == POLL && !MAY_LEAVE && deadline != NO -> clock = deadline }
  od
}
