/* Python's lock, which each of its threads needs to go on (the GIL): the loop's thread has it in a callback, also while it stands in a call of
 * libuv's. Who looks from outside sees a thread that wants it awake each few ms. Python is asked for it by its own functions, where the process has
 * them. */
#define _GNU_SOURCE
#include "force.h"

#include <dlfcn.h>

static void *(*of_thread)(void), *(*of_lock)(void), *(*give)(void);
static void (*take)(void *);

static bool has_python(void) {
    static bool looked;
    if (!looked) {
        give = (void *(*)(void))dlsym(RTLD_DEFAULT, "PyEval_SaveThread");
        take = (void (*)(void *))dlsym(RTLD_DEFAULT, "PyEval_RestoreThread");
        of_thread = (void *(*)(void))dlsym(RTLD_DEFAULT, "PyGILState_GetThisThreadState");
        of_lock = (void *(*)(void))dlsym(RTLD_DEFAULT, "PyThreadState_GetUnchecked");
        if (!of_lock) of_lock = (void *(*)(void))dlsym(RTLD_DEFAULT, "_PyThreadState_UncheckedGet");
        looked = true;
    }
    return give && take && of_thread && of_lock;
}

void *give_interpreter(void) {
    void *mine = has_python() ? of_thread() : NULL;
    return mine && mine == of_lock() ? give() : NULL;
}

void take_interpreter(void *given) {
    if (given) take(given);
}
