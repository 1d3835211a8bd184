"""What `why` says of programs whose true causes are known: truths/ has their sources, logs, and what their callbacks said they took.

Each question has by hand what its answer has to say and what it must not say: read off the source. Beside that, each time that an answer
gives to a callback or to a worker is held against what the program itself printed.
"""

from __future__ import annotations

import re
import tempfile
from dataclasses import dataclass, field
from pathlib import Path

ROOT = Path(__file__).resolve().parent.parent.parent
from tests.helper import Check, Tries, log_at
from uvt import log_summary
from uvt.inputs import read_input
from uvt.overview import Overview
from uvt.record.log import read_log
from uvt.record.run import from_data
from uvt.walk import Walk
from uvt.why import why

TRUTHS = Path(__file__).resolve().parent / "truths"
# (the clock of a log has whole milliseconds, and a callback says what its work took, without what comes before and behind it)
ALLOWED = 3
ALL = ""


@dataclass
class Question:
    """A program, a name of it (ALL: what stands out without one), and by regular expressions what is to be said and what not."""

    program: str
    name: str
    wanted: list[str]
    wrong: list[str] = field(default_factory=list)


QUESTIONS = [
    # ---- twenty-eight, of which the cause was written down before anything was recorded: waits, work of the C library, a busy machine
    Question("posted", "beat", [r"of load, on_load .*: 7\d ms in sem_wait, at posted\.c:14, in fetch, called at posted\.c:18, in on_load"]),
    Question("signalled", ALL, [r"of gate, on_gate .*: 6\d ms in pthread_cond_wait, at signalled\.c:19, in wait_ready"]),
    Question("mapped", ALL, [r"of scan, on_scan .*; 16384 page faults had to wait for the disk; .*in sum_pages \(mapped\.c:10\)"]),
    Question("flocked", ALL, [r"of save, on_save .*: 9\d ms in flock, at flocked\.c:10, in take_lock, called at flocked\.c:15, in on_save"]),
    Question("lockedf", ALL, [r"of save, on_save .*: 90 ms in fcntl, at lockedf\.c:11, in take_lock"], ["doesn't see"]),
    Question("ownpoll", ALL, [r"of drain, on_drain .*: 60 ms in epoll_wait, at ownpoll\.c:8, in wait_for_peer"], ["doesn't see"]),
    Question("spins", ALL, [r"of rates, on_rates .*its time on the processor in pthread_spin_lock .*, called by read_rates \(spins\.c:16\)"]),
    Question("yields", ALL, [r"of turn, on_turn .*its time on the processor in sched_yield .*, called by await_flag \(yields\.c:15\)"]),
    Question(
        "regexes", ALL, [r"of rule, on_rule .*its time on the processor in get_subexp .*, called by regexec .*, by match_rules \(regexes\.c:12\)"]
    ),
    Question("copies", ALL, [r"of snap, on_snap .*its time on the processor in memcpy \(.*, called by snapshot \(copies\.c:8\)"], ["evex|avx"]),
    Question("copies", "snap", [r"called 0 ms after its start, 20 ms too soon: .*: 5\d ms had gone by in the main program"], ["late by"]),
    Question("frees", ALL, [r"of drop, on_drop .*its time on the processor in free \(.*, called by drop_list \(frees\.c:7\)"], ["libc_free"]),
    Question(
        "hogs",
        ALL,
        [
            r"120 ms, 30 of them on the processor: the callback of work, .*: the thread waited 90 ms for a processor, and was pushed off it 22 times",
            r"the latest timers\n    beat, .*\n    for want of a processor, .*: 4 calls of work and beat, late by up to 9 ms",
        ],
        ["the system ended it", "gave the processor away"],
    ),
    Question(
        "hogpoll",
        "beat",
        [r"late by 37 ms: the poll, from step \d+ to \d+, was to end at 15 ms, and the thread waited 37 ms for a processor"],
        ["the system ended it"],
    ),
    Question(
        "hogpoll",
        ALL,
        [r"the latest timers\n    for want of a processor, or woken late by the system: 12 calls of beat, late by up to 71 ms"],
    ),
    Question(
        "lateask",
        "second",
        [
            r"called [01] ms after its start, (39|40) ms too soon: it is due by the loop's time, which was 20 ms still as it was started at 80 ms: "
            r"the callback of first, on_first \(lateask\.c:9\) had taken 60 ms by then",
            r"started at step \d+, when the loop's time was 20 ms and the clock at 80 ms \(so it is due 60 ms too soon, reckoned from its start\)",
        ],
        ["late by"],
    ),
    Question("lateask", ALL, [r"timers that came too soon\n    second, step"], [r"second, step \d+, call 1: late"]),
    Question("lateupd", "second", [r"call 1: (on time|late by [12] ms)"], ["too soon"]),
    Question(
        "lookups",
        "look_4",
        [r"waited for a worker from step \d+ to \d+, 120 ms, behind .* \(libuv has half of its workers at the most do lookups at a time"],
        ["worker [4-9]", "doesn't see"],
    ),
    Question("lookups", "look_1", [r"waited for a worker from step \d+ to \d+, [0-3] ms; worker \d took it"], ["half of its workers"]),
    Question(
        "manypoll",
        ALL,
        [r"who spun\n    614 polls in a row didn't wait, from step \d+ to \d+, 52 ms: peer was called in each of these rounds or most\nnames"],
    ),
    Question("noexit", ALL, [r"never called\n    child \(process\), news \(async\), slow \(work\) and lost \(fs_stat\)"]),
    Question(
        "shapes", ALL, [r"of refresh, a lambda of main .*, called by shop::Cache::refill \(truth\.h:27\), by a std::function \(shapes\.cc:28\)"]
    ),
    Question("printing", ALL, [r"of audit, on_audit .*: 80 ms in fprintf, at printing\.c:8, in tell_all"], ["doesn't see"]),
    Question(
        "timedlock",
        ALL,
        [
            r"of ask, a lambda of main .*: 60 ms in pthread_cond_clockwait, at timedlock\.cc:14, in await_answer, called at timedlock\.cc:35",
            r"of look, a lambda of main .*: 50 ms in pthread_mutex_clocklock, which thread 2 had, at timedlock\.cc:17, in try_index",
        ],
    ),
    Question(
        "eleven",
        ALL,
        [r": 7\d ms in mtx_lock, which thread 2 had, at eleven\.c:18, in on_merge", r": 40 ms in thrd_sleep, at eleven\.c:25, in on_rest"],
    ),
    Question("sigwaits", ALL, [r"of ack, on_ack .*: 60 ms in sigtimedwait, at sigwaits\.c:11, in await_ack"], ["doesn't see"]),
    Question("sends", ALL, [r"of backup, on_backup .*: 79 ms in sendfile, at sends\.c:11, in copy_file, .*the thread waited 2\d ms for a processor"]),
    Question("unmaps", ALL, [r"of shrink, on_shrink .*; 34 ms in the kernel; it was found in munmap .*, called by drop_arena \(unmaps\.c:9\)"]),
    Question("getlines", ALL, [r"of ask, on_ask .*: 83 ms in getline, at getlines\.c:9, in read_answer"], ["doesn't see"]),
    Question("future", ALL, [r"of quote, a lambda of main .*: 72 ms in futex, at future\.cc:8, in await_price"], ["doesn't see"]),
    Question("waitids", ALL, [r"of tidy, on_tidy .*: 84 ms in waitid, at waitids\.c:9, in await_helper"], ["doesn't see"]),
    Question(
        "saves",
        ALL,
        [r"of save, on_save .*: \d+ ms in write, at saves\.c:11, in save_index, called at saves\.c:17, in on_save; \d+ ms in fsync, at saves\.c:12"],
    ),
    Question("hooked", ALL, [r"none of them on the processor: the callback of hook, on_hook .*: 12\d ms in fgets, at hooked\.c:7, in run_hook"]),
    Question("fullpipe", ALL, [r"none of them on the processor: the callback of report, .*: 13\d ms in write, at fullpipe\.c:13, in send_report"]),
    Question("written", ALL, [r"none of them on the processor: the callback of look, .*: 9\d ms in uv_rwlock_rdlock, at written\.c:14, in look_up"]),
    Question("round", ALL, [r"none of them on the processor: the callback of turn, .*: 10\d ms in uv_barrier_wait, at round\.c:10, in join_round"]),
    Question(
        "packet",
        "beat",
        [r"the callback of in, on_packet \(packet\.c:14\), took .*nearly all of its time on the processor in parse \(packet\.c:11\)"],
    ),
    Question("rounds", "beat", [r"late by \d\d ms: .*the callback of idle, compute \(rounds\.c:7\), took \d\d ms"]),
    Question("prices", ALL, [r"none of them on the processor: the callback of ask, ask_price \(prices\.cc:11\), .*: 110 ms in pthread_join"]),
    Question(
        "sorts",
        ALL,
        [
            r"of job, on_job \(sorts\.c:13\), .* of its time on the processor in msort_with_tmp \([^)]*\), called by qsort_r \([^)]*\),"
            r" by sort_prices \(sorts\.c:9\)"
        ],
        [r"of job, by_number", r"msort_with_tmp \([^)]*\), by msort_with_tmp"],
    ),
    Question(
        "index",
        ALL,
        [
            r"of look, a lambda of main \(index\.cc:41\), .*: 115 ms in pthread_mutex_lock, which thread 2 had, at index\.cc:23, in Cache::refresh,",
            r"of job, a lambda of main \(index\.cc:30\), .*(?:in|by) shop::Index::rebuild \(index\.cc:17\), (?:called )?by a lambda of main"
            r" \(index\.cc:32\)",
        ],
        [r"/usr/include", r"std_mutex\.h", r"_FUN"],
    ),
    Question(
        "held",
        ALL,
        [
            r"of report, on_report .*: 81 ms in uv_mutex_lock, which thread compact had, at held\.c:\d+, in take",
            r"of index_timer, on_index .*: 84 ms in uv_mutex_lock, which thread 2 had, at held\.c:\d+, in take",
            r"of save, on_save .*: 110 ms in uv_mutex_lock, which the work of job had, at held\.c:\d+, in take",
        ],
    ),
    Question(
        "askedlate",
        "job",
        [r"waited for a worker from step \d+ to \d+, [0-3] ms; worker 0 took it", r"worker 0 ran it, work_job \(askedlate\.c:5\), from step"],
        [r"waited for a worker from step \d+ to \d+, \d{2,} ms", r"2\d\d ms later"],
    ),
    Question(
        "askedlate",
        ALL,
        [
            r"\d\d ms from its queueing to its callback: job, step \d+: [0-3] ms it waited for a worker, [23]\d ms it ran,"
            r" [0-3] ms it waited for the loop"
        ],
        [r"2\d\d ms from its queueing"],
    ),
    Question(
        "sweep",
        "beat",
        [r"late by 3\d ms: .*; others of on_closed \(sweep\.c:6\) took [23]\d ms in all"],
        [r"(.*close callback of sessions_\d+,){7}"],
    ),
    Question(
        "debounced",
        "debounce",
        [r"stood still through that callback, which took 8\d ms: so it is due up to 8\d ms too early, reckoned from its start"],
    ),
    Question(
        "drift",
        "beat",
        [r"late by 1\d ms: the callback of beat, on_beat \(drift\.c:5\), took 1\d ms, .*so the loop's time was \d+ ms still"],
        [r"\d+ ms went by in the poll"],
    ),
    Question(
        "starve",
        "tick",
        [
            r"late by \d+ ms: the callback of background, on_background \(starve\.c:9\), took 3\d ms",
            "the poll didn't wait, at steps? .*: background was an active idle handle",
        ],
        ["went by in the poll"],
    ),
    Question("starve", "inbox", [r"for the send at step \d+, \d+ ms later: the callback of background, .* took 3\d ms"], ["in the same millisecond"]),
    Question(
        "pool",
        "fifth",
        [
            r"waited for a worker from step \d+ to \d+, 20\d ms: the workers had hash_\d, hash_\d, hash_\d and hash_\d",
            r"worker \d ran it, work_fifth \(pool\.c:7\), from step \d+ to \d+, 2\d ms",
        ],
    ),
    Question(
        "pool",
        "status",
        [
            r"called 2\d\d ms after it was queued; when a worker took it and was through nobody knows \(fs_stat\)",
            r"for \d\d\d ms of them each worker had other work, .*hash_0",
        ],
        [r"worker \d ran it"],
    ),
    Question(
        "pool",
        "lookup",
        [r"when a worker took it and was through nobody knows \(addrinfo\)", r"each worker had other work, .*hash_0"],
        [r"worker \d ran it"],
    ),
    Question("pool", "hash_2", [r"worker \d ran it, work_hash \(pool\.c:6\), from step \d+ to \d+, 20\d ms"]),
    Question("pool", ALL, [r"the pool was full\n    2\d\d ms: from \d+ to 2\d\d ms, .*hash_0, hash_1, hash_2", "the longest requests\n .*: fifth, "]),
    Question(
        "neverclosed",
        "session",
        [
            r"no close callback: the run ended at step \d+: a run `once` has one iteration",
            r"closed at step \d+ by line \d+: on session close session, in on_session",
        ],
    ),
    Question("neverclosed", "later", ["no call: the run ended at step .*`once` has one iteration", "due at 30 ms"]),
    Question("coalesce", "news", ["for the send at step", r"4 sends, and one call", r"\d+ ms later: the callback of news, .* took 2\d ms"]),
    Question(
        "again",
        "inactivity",
        [r"inactivity: a timer, 1 call", r"call 1: (on time|late by [12] ms)", "due at 50 ms"],
        ["never called", "stopped by", "no call"],
    ),
    Question(
        "again",
        "inactivity",
        [
            r"uv_timer_again at again\.c:7, in on_traffic, did nothing, 4 times, in the callback of step \d+, step \d+, step \d+ and step \d+: "
            "the timer doesn't repeat"
        ],
    ),
    Question("behind", "sample", [r"late by \d\d ms: the callback of flush, on_flush \(behind\.c:6\), took 4\d ms", r"\d repeats lost"]),
    Question("unrefd", "retry", ["retry: a timer, never called", r"nothing kept the loop alive, for retry is unreferenced since step \d+, by line"]),
    Question("unrefd", "jobs_5", ["cancelled before a worker took it", "on abort_all cancel jobs_5, in on_abort"]),
    Question("unrefd", "jobs_1", [r"`cancel jobs_1` returns EBUSY: too late: worker \d took it", r"worker \d ran it, work_job .*, 6\d ms"]),
    Question(
        "blocked",
        "job",
        [
            r"done at step \d+, 1\d\d ms later: the callback of blocker, on_blocker \(blocked\.c:6\), took 20\d ms",
            r"worker \d ran it, work_job \(blocked\.c:7\), from step \d+ to \d+, [23]\d ms",
        ],
        ["same millisecond", r" 2\d\d ms;"],
    ),
    Question("blocked", "inbox", [r"for the send at step \d+, 1\d\d ms later: the callback of blocker, .* took 20\d ms"], ["same millisecond;"]),
    Question(
        "blocked",
        ALL,
        [r"the longest callbacks\n    20\d ms: the callback of blocker, on_blocker \(blocked\.c:6\)", r"the latest sends\n    1\d\d ms: inbox, "],
    ),
    Question("echo", "heartbeat", [r"late by 2\d ms: the callback of peer, on_server_read \(echo\.c:15\), took 3\d ms"]),
    Question(
        "echo",
        "client",
        [
            "tcp, which stands as a handle of I/O",
            "it left the poll: tcp: .*, and when nobody knows",
            r"lie 3\d ms: the callback of peer, on_server_read",
        ],
        [r"when nobody knows\n +.* same millisecond", r"\d ms later"],
    ),
    Question(
        "wrongthread",
        "wrong",
        [
            "WRONG THREAD: uv_timer_start was called by another thread while the loop ran",
            r"started at step \d+, .*, by ANOTHER THREAD, with uv_timer_start",
        ],
        ["in on_innocent"],
    ),
    Question("wrongthread", "innocent", ["call 1: (on time|late by [12] ms)"], ["ANOTHER", "WRONG"]),
    Question("pollspin", ALL, [r"who spun\n    \d+ polls in a row didn't wait, .*: readable was called in each of these rounds"]),
    Question(
        "forgotten", ALL, [r"what kept the loop alive\n    at the end, .* and the poll waits: forgotten \(async\)\n", r"never called\n    forgotten"]
    ),
    Question(
        "conns",
        "on_idle_3",
        [
            r"late by \d\d ms: the callback of on_request_3, on_request \(conns\.c:16\), took 9\d ms",
            "in memory of its own: the name is that of its function on_idle",
        ],
    ),
    Question("conns", ALL, [r"the longest callbacks\n    9\d ms: the callback of on_request_3, on_request"]),
    Question("rearmed", "next", [r"calls \d+ to \d+: each asked for in the one before, due from"], []),
    Question("rearmed", "missed", ["missed: a timer, never called", "a run `nowait` has one iteration"]),
    Question(
        "files",
        "opening",
        [
            r"called 12\d ms after it was queued; when a worker took it and was through nobody knows \(fs_open\)",
            r"for 1[12]\d ms of them each worker had other work, .*compress_0 and compress_1",
        ],
        [r"worker \d ran it"],
    ),
    Question("files", ALL, [r"the longest callbacks\n    1\d ms: the after callback of reading, on_read \(files\.c:\d+\)"]),
    Question("child", "output", ["pipe, which stands as a handle of I/O", "it left the poll: pipe: .*, and when nobody knows"], ["same millisecond"]),
    Question("crowd", "slow", ["it left the poll: pipe: .*, and when nobody knows"], [r"\d ms behind"]),
    Question(
        "crowd",
        "quick",
        [
            "pipe: 5 bytes were read, and it was called",
            r"30 ms behind the end of the poll, .*: the callback of slow, on_slow \(crowd\.c:8\), took 30 ms",
        ],
        ["nobody knows"],
    ),
    Question(
        "crowd",
        "ended",
        [
            "pipe: the end of the stream, and it was called",
            r"30 ms behind the end of the poll, .*: the callback of slow, on_slow \(crowd\.c:8\), took 30 ms",
        ],
        ["nobody knows"],
    ),
    Question("crowd", ALL, [r"the longest callbacks\n    30 ms: the callback of slow, on_slow \(crowd\.c:8\)", r"I/O\n    quick, .*30 ms behind"]),
    Question(
        "fifo",
        "line",
        [
            r"waited for a worker from step \d+ to \d+, 2\d\d ms: the workers had opening_0, opening_1, opening_2 and opening_3",
            r"worker \d ran it from step \d+ to \d+, 0 ms",
        ],
        ["nobody knows"],
    ),
    Question("fifo", ALL, [r"the pool was full\n    2\d\d ms: .*opening_0, opening_1, opening_2, opening_3"]),
    Question("fault", ALL, [r"THE PROGRAM WAS ENDED BY SIGSEGV: this loop was in the callback of reply_3, on_reply \(fault\.c:5\)"]),
    Question(
        "busy",
        ALL,
        [r"the loop was not closed\n    step \d+: uv_loop_close returns EBUSY, for once \(timer\), leak \(async\) and look \(check\) " r"are there"],
    ),
    Question(
        "winner",
        "news",
        [r"call 1: for the send at step \d+, in the same millisecond\n .* after quick send news, in done"],
        [r"\d sends", "nobody saw"],
    ),
    Question("watched", "ping", [r"sent to at step \d+ by loop 1, in on_beat \(watched\.c:13\)"], ["from outside"]),
    Question(
        "pushed",
        "inactivity",
        [
            r"steps \d+ to \d+: 20 times no call: each time started again before it was due",
            r"the first time by line \d+: on request @1 start inactivity 40 0, in on_request \(pushed\.c:9\)",
            r"call 1: (on time|late by \d ms)",
        ],
        ["no call: started again by"],
    ),
    Question("chatter", ALL, [r"\d\d\d callbacks"], ["who spun"]),
    Question("idling", ALL, [r"who spun\n    \d+ polls in a row didn't wait, .*: once was called in each of .*; once is an active idle handle"]),
    Question("child", "kill_it", [r"call 1: (on time|late by \d ms: the poll, .* the system ended it)"], ["callback of output"]),
    Question(
        "stacked",
        ALL,
        [
            r"WRITTEN OVER: on_deadline, a timer on the stack, made at stacked\.c:9, in arm, called at stacked\.c:26, in main: "
            r"its memory was written over, at 0 ms, and it was not closed"
        ],
        ["WRITTEN OVER: beat"],
    ),
    Question("stacked", "on_deadline", [r"WRITTEN OVER: a timer on the stack, made at stacked\.c:9, in arm", "no call: it isn't due yet"]),
    Question(
        "freed",
        ALL,
        [
            r"WRITTEN OVER: on_timeout, a timer, made at freed\.c:12, in begin_session, called at freed\.c:23, in on_next: "
            r"another handle was made in its memory, between 1\d and 2\d ms",
            r"WRITTEN OVER: on_timeout_2, a timer, made at freed\.c:12, .*: its memory was written over, between 2\d and 3\d ms",
        ],
        ["WRITTEN OVER: (next_session|late)", "on the stack"],
    ),
    # ---- requests of streams
    Question(
        "chat",
        "peer",
        [
            r"its requests: 1 write, 8388608 bytes",
            r"a write of 8388608 bytes, .* at chat\.c:17, in broadcast, called at chat\.c:22, in on_connection, "
            r"was done 1\d\d ms later, at step \d+: for 1\d\d of these ms the loop waited in the poll, and the system had "
            r"no room",
        ],
    ),
    Question("chat", ALL, [r"the longest writes, connects and shutdowns\n    1\d\d ms: peer, a write of 8388608 bytes"]),
    Question(
        "hangup",
        "line",
        [
            r"a write of 8388608 bytes, .*, was cancelled [56]\d ms later, at step \d+: the close at step \d+ cancelled it, "
            r"by line \d+: on patience close line, at hangup\.c:12, in hang_up, called at hangup\.c:14, in on_patience",
            r"a write of 5 bytes, .*, was cancelled",
        ],
        ["was done"],
    ),
    Question(
        "refused", "client", [r"a connect, .* at refused\.c:9, in dial, called at refused\.c:19, in main, failed \d+ ms later, .* with ECONNREFUSED"]
    ),
    Question(
        "datagram",
        "sender",
        [
            "its requests: 3 datagrams, 70350 bytes",
            r"a datagram of 70000 bytes, .*, failed \d ms later, .* with EMSGSIZE",
            r"a datagram of 250 bytes, asked for at \d ms, at datagram\.c:16, in announce, .*was done",
        ],
    ),
    Question(
        "goodbye",
        "out",
        [
            r"a shutdown, .* at goodbye\.c:23, in say_goodbye, .*was done 9\d ms later, .*: for [89]\d of these ms the loop waited in the poll, "
            "and what was written before wasn't done"
        ],
    ),
    Question(
        "backlog",
        "out",
        [
            r"a write of 5 bytes, .* at backlog\.c:14, in on_ask, was done 5\d ms later, .*: the callback of hog, "
            r"on_hog \(backlog\.c:16\), took 5\d of them"
        ],
        ["no room"],
    ),
    # ---- the processor's time
    Question("sleeper", "beat", [r"the callback of flush, on_flush \(sleeper\.c:4\), took 6\d ms, none of them on the processor"]),
    Question(
        "locked", ALL, [r"the longest callbacks\n    \d+ ms, none of them on the processor: the callback of report, on_report \(locked\.c:13\)"]
    ),
    Question("halves", "beat", [r"the callback of convert, on_convert \(halves\.c:4\), took \d+ ms, 3\d of them on the processor"]),
    Question("slowdisk", "load", [r"worker \d ran it, work_load \(slowdisk\.c:4\), from step \d+ to \d+, 7\d ms, none of them on the processor"]),
    # ---- what a callback waited for, and where it was
    Question(
        "latch",
        ALL,
        [r"7\d ms, none of them on the processor: the callback of report, .*: 7\d ms in pthread_mutex_lock, at latch\.c:16, in on_report"],
        ["gave the processor away"],
    ),
    Question("latch", "beat", [r"late by 6\d ms: the callback of report, .*: 7\d ms in pthread_mutex_lock, at latch\.c:16, in on_report"]),
    Question("syncread", "beat", [r": 8\d ms in uv_fs_read, at syncread\.c:14, in on_config"], [r"ms in read\b"]),
    Question(
        "reaper",
        ALL,
        ["WAITED FOR BY THE PROGRAM: hook, a process, at reaper\\.c:14, in on_deploy", r"8\d ms in waitpid \(2 calls\), at reaper\.c:14"],
    ),
    Question("reaper", "hook", [r"WAITED FOR BY THE PROGRAM, at reaper\.c:14, in on_deploy: so libuv never calls its exit callback"]),
    Question("fresh", "beat", [r"1\d\d ms in the kernel, 512\d\d page faults; nearly all of its time on the processor at fresh\.c:10"]),
    Question("stopped", "beat", [r"late by 1\d\d ms: .*a signal ended it, and no processor was lacking: the process was stopped meanwhile"]),
    Question(
        "arena",
        "beat",
        [r"the callback of in, on_read .*: 5\d ms in its alloc callback, grow_arena \(arena\.c:8\)"],
        ["none of them on the processor"],
    ),
    Question(
        "hotspot",
        "beat",
        [r"most of its time on the processor in burn \(hotspot\.c:8\), called by rebuild_index \(hotspot\.c:11\)"],
        ["render", "gave the processor away"],
    ),
    # ---- who asked: lines, and the callers of functions that stand between
    Question("slowdisk", "load", [r"queued at step \d+ by .*, at slowdisk\.c:10, in load_it"]),
    Question(
        "churn",
        "idle_out",
        [
            r"started at step \d+, .* by line \d+: on second start idle_out 30 0, at churn\.c:6, in rearm, called at churn\.c:10, in on_second",
            r"started again by .* at churn\.c:6, in rearm, called at churn\.c:8, in on_first",
            r", in rearm, called at churn\.c:19, in main",
        ],
    ),
    Question("wrapper", "retry", [r"started at step \d+, .*, at wrapper\.c:6, in start_in, called at wrapper\.c:9, in plan"]),
    Question(
        "lambda",
        ALL,
        [
            r"the longest callbacks\n    3\d ms(, \d+ of them on the processor)?: the callback of main_server_0, a lambda of Server::run "
            r"\(lambda\.cc:13\)"
        ],
        ["_FUN", "zz4"],
    ),
    Question(
        "lambda",
        "main_server_1",
        [
            r"late by \d+ ms: the callback of main_server_0, a lambda of Server::run \(lambda\.cc:13\), took 3\d ms",
            r"started at step \d+, .*, at lambda\.cc:19, in Server::run",
        ],
    ),
    Question(
        "watchdog",
        "watchdog",
        [r"sent to at step \d+ by loop 1, in on_feed \(watchdog\.c:8\), 7\d ms after that began, at watchdog\.c:10, in on_feed"],
        ["from outside"],
    ),
    Question("producer", "ready", [r"sent to at step \d+ by another thread, at producer\.c:7, in produce"], ["from outside"]),
    Question("progress", "half", [r"sent to at step \d+ by another thread, at progress\.c:5, in tell_half, called at progress\.c:9, in work_pack"]),
    Question("disarm", "alarm_clock", [r"no call: stopped by .*, at disarm\.c:6, in disarm, called at disarm\.c:15, in on_event"]),
    Question(
        "disarm",
        "background",
        [r"background is unreferenced since step \d+, by .* at disarm\.c:9, in to_background, called at disarm\.c:16, in on_event"],
    ),
    Question("disarm", "session", [r"no call: closed by .* at disarm\.c:12, in end_session, called at disarm\.c:17, in on_event"]),
    Question(
        "giveup",
        "jobs_7",
        [
            r"cancelled at step \d+ by .*, at giveup\.c:11, in give_up, called at giveup\.c:13, in on_limit",
            r"queued at step \d+ by .*, at giveup\.c:8, in submit",
        ],
    ),
    Question(
        "stripped",
        "timer_2",
        [
            r"late by \d+ ms: the callback of timer, a function of stripped, took \d+ ms",
            r"closed at step \d+ by .*, in a function of stripped that has no symbol",
        ],
    ),
    # ---- ends
    Question("aborts", ALL, [r"THE PROGRAM WAS ENDED BY SIGABRT: this loop was in the callback of replies_2, on_reply \(aborts\.c:7\)"]),
    Question(
        "becomes",
        ALL,
        [r"the longest callbacks\n    3\d ms(, \d+ of them on the processor)?: the callback of prepare_it, on_prepare \(becomes\.c:4\)"],
    ),
]
SAID = re.compile(r"(.+) took (\d+) ms")
TOOK = re.compile(r"the callback of ([a-z_0-9]+)(?:, [^;\n]*?,)? took (\d+) ms")
RAN = re.compile(r"worker \d ran it, work_([a-z_]+) .*?, (\d+) ms(?:, \w+ of them on the processor)?$", re.MULTILINE)
# (a name of an object is that of its variable, and what it says of itself may be shorter)
SAYS = {"on_request_3": "request 3"}
# How long a request of a stream was under way, and a callback or work on the processor: what is told, and what the program said.
UNDER_WAY = re.compile(r"a (write|connect|shutdown|datagram)(?: of \d+ bytes?)?, asked for .*?, was (?:done|cancelled) (\d+) ms later")
SAID_WAITED = re.compile(r"(.+): (\w+) waited (\d+) ms")
RAN_FOR = re.compile(r"(?:the callback of ([a-z_0-9]+)|work_([a-z_]+))[^;\n]*? (\d+) ms, (\d+|none) of them on the processor")
SAID_RAN = re.compile(r"(.+) was on the processor for (\d+) ms")


def said_of(program: str) -> dict[str, list[int]]:
    """What the program's callbacks said they took."""
    found: dict[str, list[int]] = {}
    for line in (TRUTHS / f"{program}.said").read_text().splitlines():
        if said := SAID.fullmatch(line):
            found.setdefault(said[1], []).append(int(said[2]))
    return found


def untrue(answer: str, said: dict[str, list[int]]) -> list[str]:
    """The times of an answer that the program doesn't confirm. (Several callbacks of one handle may be one: a sum of theirs.)"""
    found = []
    for name, took in [*TOOK.findall(answer), *RAN.findall(answer)]:
        known = said.get(SAYS.get(name, name), [])
        if known and not any(abs(int(took) - it) <= ALLOWED for it in known):
            found.append(f"{name} took {took} ms, and said {known}")
        if not known and int(took) > ALLOWED:
            found.append(f"{name} took {took} ms, and said nothing")
    return found


# What the log alone says at once, of a callback and of a timer that waited.
LONG = re.compile(r"^ +(\d+) ms: [^,]*, of ([a-z_0-9]+(?:\[\d+\])?), at", re.MULTILINE)
WAITED = re.compile(r"^ +(\d+) ms behind \d+ ms, when it was due: [^,]*, of ([a-z_0-9]+(?:\[\d+\])?),", re.MULTILINE)
AT_ONCE = {
    "blocked": [
        r"200 ms: on_blocker \(blocked\.c:6\), of blocker",
        r"when it was sent to: on_inbox .*: 1\d\d ms of them in on_blocker",
        r"when it was through: done .*, of job, .*: 1\d\d ms of them in on_blocker",
    ],
    "behind": [r"4\d ms behind \d+ ms, when it was due: on_sample .*, of sample, .* ms of them in on_flush \(behind\.c:6\)"],
    "conns": [r"90 ms: on_request \(conns\.c:16\)", r"81 ms behind 50 ms, when it was due: on_idle \(conns\.c:9\), .*: 70 ms of them in on_request"],
}


def try_glance(check: Check, program: str, walk: Walk) -> None:
    """What the log says by itself, beside what the program printed, and beside what `why` says of the late timers."""
    told = "\n".join(log_summary.told(log_at(TRUTHS / f"{program}.log").read_bytes()))
    said = said_of(program)
    for took, name in LONG.findall(told):
        known = said.get(re.sub(r"\[(\d+)\]", r"_\1", name), [])
        check(f"truths, {program}: {name} by the log alone", not known or any(abs(int(took) - it) <= ALLOWED for it in known), (took, known))
    for took, name in WAITED.findall(told) if "loop 1:" not in told else []:
        answer = "\n".join(why(walk, re.sub(r"\[(\d+)\]", r"_\1", name)))
        check(f"truths, {program}: how late {name} was by the log alone", f"late by {took} ms" in answer, (took, answer))
    missing = [it for it in AT_ONCE.get(program, []) if not re.search(it, told)]
    check(f"truths, {program}: by the log alone", not missing, f"{missing} isn't in\n{told}")


def untrue_of_requests(answer: str, program: str, name: str) -> list[str]:
    """The same of the requests of this stream. (Small ones that waited for nobody say nothing.)"""
    said = [it.groups() for it in map(SAID_WAITED.fullmatch, (TRUTHS / f"{program}.said").read_text().splitlines()) if it and it[1] == name]
    return [
        f"a {what} waited {ms} ms, and the program said {said}"
        for what, ms in UNDER_WAY.findall(answer)
        if int(ms) > ALLOWED and not any(what == other and abs(int(ms) - int(known)) <= ALLOWED for _, other, known in said)
    ]


def untrue_of_processor(answer: str, program: str) -> list[str]:
    """The same of the processor's time. (A program says it where that is what it is about.)"""
    said: dict[str, list[int]] = {}
    for it in filter(None, map(SAID_RAN.fullmatch, (TRUTHS / f"{program}.said").read_text().splitlines())):
        said.setdefault(it[1], []).append(int(it[2]))
    found = [(callback or work, 0 if ran == "none" else int(ran)) for callback, work, _, ran in RAN_FOR.findall(answer)]
    return [f"{name} {ran}, and said {said[name]}" for name, ran in found if name in said and not any(abs(ran - it) <= ALLOWED for it in said[name])]


def recorded(check: Check, program: str, folder: Path) -> Walk:
    data = log_at(TRUTHS / f"{program}.log").read_bytes()
    lines, whole = from_data(data, read_log(data), str(folder / program))
    check(f"truths, {program}: its recording", whole, lines)
    loud = "WRONG THREAD: uv_timer_start of wrong by another thread" in "\n".join(lines)
    check(f"truths, {program}: a wrong thread is said loudly, and nowhere else", loud == (program == "wrongthread"), lines)
    # (of several loops the first one)
    script, steps = read_input(next(it for it in (folder / f"{program}.rec", folder / f"{program}.0.rec") if it.is_file()))
    return Walk(script, steps)


def try_truths(tries: Tries) -> None:
    check, right = tries.check, 0
    walks: dict[str, Walk] = {}
    with tempfile.TemporaryDirectory() as folder:
        for it in QUESTIONS:
            if it.program not in walks:
                walks[it.program] = recorded(check, it.program, Path(folder))
            walk = walks[it.program]
            answer = "\n".join(why(walk, it.name) if it.name else Overview(walk).answer("why NAME"))
            missing = [text for text in it.wanted if not re.search(text, answer)]
            wrong = [text for text in it.wrong if re.search(text, answer)]
            right += not missing
            check(f"truths, {it.program} {it.name}: what is said", not missing, f"{missing} isn't in\n{answer}")
            check(f"truths, {it.program} {it.name}: nothing false is said", not wrong, f"{wrong} is in\n{answer}")
            wrong = untrue_of_requests(answer, it.program, it.name) if it.name else []
            check(f"truths, {it.program} {it.name}: how long its requests waited", not wrong, wrong)
            wrong = untrue_of_processor(answer, it.program)
            check(f"truths, {it.program} {it.name}: the processor's time", not wrong, wrong)
        for program, walk in walks.items():
            answer = "\n".join("\n".join(why(walk, name)) for name in walk.script.names()) + "\n".join(Overview(walk).answer("why NAME"))
            try_glance(check, program, walk)
            check(f"truths, {program}: times", not (found := untrue(answer, said_of(program))), found)
            walk.close()
    page, programs = (ROOT / "docs" / "RECORD.md").read_text(), len({it.program for it in QUESTIONS})
    said = f"{programs} programs whose true causes are known" in page and f"To {len(QUESTIONS)} questions about them" in page
    check("truths: how many RECORD.md says", said, (programs, len(QUESTIONS)))
    check("truths, how many answers give the true cause", right >= 0.93 * len(QUESTIONS), (right, len(QUESTIONS)))
