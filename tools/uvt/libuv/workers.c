// Requests and the workers of the pool, as the steps `take` and `finish` lead them.
#include "pool.h"
#include "run.h"

static Handle *longest_waiting(void) {
    Handle *found = NULL;
    for (Handle *handle = run.last_made; handle != NULL; handle = handle->before)
        if (handle->kind == WORK && handle->outcome == WAITING)
            found = handle;
    return found;
}

bool take_work(size_t worker) {
    Handle *handle = longest_waiting();
    if (worker >= run.workers || run.running[worker] != NULL || handle == NULL)
        return false;
    let_take(worker);
    handle->outcome = RUNNING;
    run.running[worker] = handle;
    print("out take %zu %s %zu.%u", worker, run.script.names[handle->name].text, handle->slot, handle->generation);
    return true;
}

bool finish_work(size_t worker) {
    if (worker >= run.workers || run.running[worker] == NULL)
        return false;
    Handle *handle = run.running[worker];
    let_finish(worker);
    handle->outcome = DONE;
    run.running[worker] = NULL;
    print("out finish %zu %s %zu.%u", worker, run.script.names[handle->name].text, handle->slot, handle->generation);
    return true;
}

// A worker takes a request if one waits and one is free; else one finishes. The first worker that can, or the last one.
bool do_some_work(bool from_the_last) {
    bool (*const tries[])(size_t) = {take_work, finish_work};
    for (int which = 0; which < 2; which++)
        for (size_t at = 0; at < run.workers; at++)
            if (tries[which](from_the_last ? run.workers - 1 - at : at))
                return true;
    return false;
}

void drain_pool(void) {
    for (Handle *handle = run.last_made; handle != NULL; handle = handle->before)
        if (handle->kind == WORK && handle->outcome == WAITING)
            uv_cancel((uv_req_t *)&handle->is.work);
    for (size_t worker = 0; worker < run.workers; worker++)
        if (run.running[worker] != NULL) {
            let_finish(worker);
            run.running[worker] = NULL;
        }
}
