// The ops of a script, done by the library, and the callbacks that it calls.
#include <inttypes.h>
#include <stdlib.h>
#include <string.h>

#include "pool.h"
#include "run.h"

static const char *const kinds[] = {"timer", "idle", "prepare", "check", "async", "io"};

// ---- callbacks

static void do_body(int name, enum Body body) {
    Name *named = &run.script.names[name];
    Ops *ops = &named->bodies[body];
    uint64_t call = ++named->calls[body];
    for (size_t at = 0; at < ops->count; at++)
        if (ops->items[at].call == 0 || ops->items[at].call == call)
            do_op(&ops->items[at]);
}

void call_handle(Handle *handle) {
    print("call %s %zu.%u", run.script.names[handle->name].text, handle->slot, handle->generation);
    do_body(handle->name, ON);
}

static void timer_called(uv_timer_t *timer) {
    call_handle((Handle *)timer);
}

static void idle_called(uv_idle_t *idle) {
    call_handle((Handle *)idle);
}

static void prepare_called(uv_prepare_t *prepare) {
    call_handle((Handle *)prepare);
}

static void check_called(uv_check_t *check) {
    call_handle((Handle *)check);
}

static void async_called(uv_async_t *async) {
    call_handle((Handle *)async);
}

static void closed(uv_handle_t *closing) {
    Handle *handle = (Handle *)closing;
    close_io(handle);
    free_slot(handle);
    print("closed %s %zu.%u", run.script.names[handle->name].text, handle->slot, handle->generation);
    do_body(handle->name, CLOSED);
}

static void after_work(uv_work_t *work, int status) {
    Handle *handle = (Handle *)work;
    const char *outcome = status == 0 ? "ok" : uv_err_name(status);
    free_slot(handle);
    print("after %s %zu.%u %s", run.script.names[handle->name].text, handle->slot, handle->generation, outcome);
    do_body(handle->name, AFTER);
}

// ---- answers

static void answer(const Op *op, const char *text) {
    print("%s = %s", op->text, text);
}

static void answer_number(const Op *op, uint64_t number) {
    print("%s = %" PRIu64, op->text, number);
}

static void answer_id(const Op *op, const Handle *handle) {
    print("%s = %zu.%u", op->text, handle->slot, handle->generation);
}

static const char *code_of(int status) {
    return status == 0 ? "ok" : uv_err_name(status);
}

// ---- ops of the loop

static uv_run_mode mode_of(const char *word) {
    return strcmp(word, "default") == 0 ? UV_RUN_DEFAULT : strcmp(word, "once") == 0 ? UV_RUN_ONCE : UV_RUN_NOWAIT;
}

static void run_loop(const Op *op) {
    run.quiet = run.script.undisturbed;
    print("%s", op->text);
    run.quiet = false;
    int alive = uv_run(run.loop, mode_of(op->kind));
    print("end %d", alive != 0);
}

static void close_loop(const Op *op) {
    int status = uv_loop_close(run.loop);
    if (status == 0)
        run.loop = NULL;
    answer(op, code_of(status));
    if (status == 0 && op + 1 != run.script.main.items + run.script.main.count)
        longjmp(run.ending, LOOP_CLOSED);
}

static void ask_timeout(const Op *op) {
    int timeout = uv_backend_timeout(run.loop);
    if (timeout < 0)
        answer(op, "infinite");
    else
        answer_number(op, (uint64_t)timeout);
}

static bool do_loop_op(const Op *op) {
    if (strcmp(op->word, "run") == 0) {
        run_loop(op);
    } else if (strcmp(op->word, "closeloop") == 0) {
        close_loop(op);
    } else if (strcmp(op->word, "stoploop") == 0) {
        uv_stop(run.loop);
        answer(op, "ok");
    } else if (strcmp(op->word, "updatetime") == 0) {
        uv_update_time(run.loop);
        answer(op, "ok");
    } else if (strcmp(op->word, "now") == 0) {
        answer_number(op, uv_now(run.loop));
    } else if (strcmp(op->word, "alive") == 0) {
        answer_number(op, uv_loop_alive(run.loop) != 0);
    } else if (strcmp(op->word, "timeout") == 0) {
        ask_timeout(op);
    } else {
        return false;
    }
    return true;
}

// ---- ops that make a handle or a request

static void init_as(Handle *handle) {
    switch (handle->kind) {
    case TIMER:
        uv_timer_init(run.loop, &handle->is.timer);
        break;
    case IDLE:
        uv_idle_init(run.loop, &handle->is.idle);
        break;
    case PREPARE:
        uv_prepare_init(run.loop, &handle->is.prepare);
        break;
    case CHECK:
        uv_check_init(run.loop, &handle->is.check);
        break;
    case ASYNC:
        uv_async_init(run.loop, &handle->is.async, async_called);
        break;
    case IO:
        open_io(handle);
        break;
    case WORK:
        uv_queue_work(run.loop, &handle->is.work, do_work, after_work);
        break;
    }
}

static enum Kind kind_made_by(const Op *op) {
    for (int kind = TIMER; kind < WORK; kind++)
        if (strcmp(op->word, "init") == 0 && strcmp(op->kind, kinds[kind]) == 0)
            return (enum Kind)kind;
    return WORK;
}

static bool do_making_op(const Op *op) {
    if (strcmp(op->word, "init") != 0 && strcmp(op->word, "queue") != 0)
        return false;
    if (run.script.names[op->name].bound != NULL) {
        answer(op, "EBOUND");
        return true;
    }
    Handle *handle = make_handle(op->name, kind_made_by(op));
    if (handle == NULL) {
        answer(op, "EFULL");
        return true;
    }
    init_as(handle);
    answer_id(op, handle);
    return true;
}

// ---- ops of a timer

static const char *start_timer(Handle *handle, const Op *op) {
    return code_of(uv_timer_start(&handle->is.timer, timer_called, op->first, op->second));
}

static bool do_timer_op(Handle *handle, const Op *op) {
    uv_timer_t *timer = &handle->is.timer;
    if (handle->kind != TIMER)
        return false;
    if (strcmp(op->word, "start") == 0 && op->fields == 4) {
        answer(op, start_timer(handle, op));
    } else if (strcmp(op->word, "stop") == 0) {
        answer(op, code_of(uv_timer_stop(timer)));
    } else if (strcmp(op->word, "again") == 0) {
        answer(op, code_of(uv_timer_again(timer)));
    } else if (strcmp(op->word, "repeat") == 0) {
        uv_timer_set_repeat(timer, op->first);
        answer(op, "ok");
    } else if (strcmp(op->word, "due") == 0) {
        answer_number(op, uv_timer_get_due_in(timer));
    } else {
        return false;
    }
    return true;
}

// ---- ops of an idle, a prepare, a check, an async handle and one of I/O

static int start_watcher(Handle *handle) {
    switch (handle->kind) {
    case IDLE:
        return uv_idle_start(&handle->is.idle, idle_called);
    case PREPARE:
        return uv_prepare_start(&handle->is.prepare, prepare_called);
    default:
        return uv_check_start(&handle->is.check, check_called);
    }
}

static int stop_watcher(Handle *handle) {
    switch (handle->kind) {
    case IDLE:
        return uv_idle_stop(&handle->is.idle);
    case PREPARE:
        return uv_prepare_stop(&handle->is.prepare);
    default:
        return uv_check_stop(&handle->is.check);
    }
}

static bool do_watcher_op(Handle *handle, const Op *op) {
    if (handle->kind != IDLE && handle->kind != PREPARE && handle->kind != CHECK)
        return false;
    if (strcmp(op->word, "start") == 0 && op->fields == 2)
        answer(op, code_of(start_watcher(handle)));
    else if (strcmp(op->word, "stop") == 0)
        answer(op, code_of(stop_watcher(handle)));
    else
        return false;
    return true;
}

static bool do_io_op(Handle *handle, const Op *op) {
    if (handle->kind != IO)
        return false;
    if (strcmp(op->word, "start") == 0 && op->fields == 2)
        answer(op, code_of(start_io(handle)));
    else if (strcmp(op->word, "stop") == 0)
        answer(op, code_of(stop_io(handle)));
    else
        return false;
    return true;
}

const char *send_to(Handle *handle) {
    if (handle == NULL)
        return "ESTALE";
    return handle->kind == ASYNC ? code_of(uv_async_send(&handle->is.async)) : "EKIND";
}

const char *cancel_work(Handle *handle) {
    if (handle == NULL)
        return "ESTALE";
    if (handle->kind != WORK)
        return "EKIND";
    int status = uv_cancel((uv_req_t *)&handle->is.work);
    if (status == 0)
        handle->outcome = CANCELLED;
    return code_of(status);
}

// ---- ops of any handle

// The library doesn't look whether a handle closes already: closing it again is a mistake that ends the process.
static const char *close_handle(Handle *handle) {
    if (uv_is_closing(&handle->is.handle))
        return "EINVAL";
    uv_close(&handle->is.handle, closed);
    return "ok";
}

static bool do_handle_op(Handle *handle, const Op *op) {
    uv_handle_t *any = &handle->is.handle;
    if (handle->kind == WORK)
        return false;
    if (strcmp(op->word, "close") == 0) {
        answer(op, close_handle(handle));
    } else if (strcmp(op->word, "ref") == 0) {
        uv_ref(any);
        answer(op, "ok");
    } else if (strcmp(op->word, "unref") == 0) {
        uv_unref(any);
        answer(op, "ok");
    } else if (strcmp(op->word, "hasref") == 0) {
        answer_number(op, uv_has_ref(any) != 0);
    } else if (strcmp(op->word, "active") == 0) {
        answer_number(op, uv_is_active(any) != 0);
    } else if (strcmp(op->word, "closing") == 0) {
        answer_number(op, uv_is_closing(any) != 0);
    } else {
        return false;
    }
    return true;
}

void do_op(const Op *op) {
    if (do_loop_op(op) || do_making_op(op))
        return;
    Handle *handle = run.script.names[op->name].bound;
    if (handle == NULL)
        answer(op, "ESTALE");
    else if (strcmp(op->word, "send") == 0)
        answer(op, send_to(handle));
    else if (strcmp(op->word, "cancel") == 0)
        answer(op, cancel_work(handle));
    else if (!do_timer_op(handle, op) && !do_watcher_op(handle, op) && !do_io_op(handle, op) && !do_handle_op(handle, op))
        answer(op, "EKIND");
}
