// The slots of handles and requests, counted as uvt counts them.
#include <stdlib.h>

#include "run.h"

static bool take_slot(Handle *handle) {
    if (run.generations == NULL) {
        run.generations = calloc(run.script.slots, sizeof *run.generations);
        run.free_slots = calloc(run.script.slots, sizeof *run.free_slots);
        if (run.generations == NULL || run.free_slots == NULL)
            abort();
    }
    if (run.free_count > 0)
        handle->slot = run.free_slots[--run.free_count];
    else if (run.used_slots < run.script.slots)
        handle->slot = run.used_slots++;
    else
        return false;
    handle->generation = run.generations[handle->slot];
    return true;
}

Handle *make_handle(int name, enum Kind kind) {
    Handle *handle = calloc(1, sizeof *handle);
    if (handle == NULL)
        abort();
    handle->kind = kind;
    handle->name = name;
    if (!take_slot(handle)) {
        free(handle);
        return NULL;
    }
    handle->before = run.last_made;
    run.last_made = handle;
    run.script.names[name].bound = handle;
    return handle;
}

void free_slot(Handle *handle) {
    if (run.script.names[handle->name].bound == handle)
        run.script.names[handle->name].bound = NULL;
    if (run.generations[handle->slot] == run.script.last_generation)
        return;
    run.generations[handle->slot]++;
    run.free_slots[run.free_count++] = handle->slot;
}

void clear_slots(void) {
    // the handles stay in memory: a loop that was left in the middle of a run still points at them
    for (Handle *handle = run.last_made; handle != NULL; handle = handle->before)
        close_io(handle);
    run.last_made = NULL;
    free(run.generations);
    free(run.free_slots);
    run.generations = NULL;
    run.free_slots = NULL;
    run.free_count = run.used_slots = 0;
}
