/* Who called the function of the program that calls libuv: of a trampoline, a lambda or a function that starts a timer again that says more than the
 * line itself. It is looked for on the stack, by what the compiler has left for exceptions. That takes more than a line of the log, so it is done for
 * the first calls of each place alone. */
#define _GNU_SOURCE
#include "recorder.h"

#include <dlfcn.h>
#include <string.h>
#include <unwind.h>

enum { EACH = 64, MANY = 4096, DEEP = 24 };

struct look {
    uintptr_t from, found;
    int seen;
    bool next; /* the frame that comes is the caller's */
};

static _Unwind_Reason_Code see_frame(struct _Unwind_Context *frame, void *word) {
    struct look *look = word;
    uintptr_t at = _Unwind_GetIP(frame);
    if (look->next) {
        look->found = at;
        return _URC_END_OF_STACK;
    }
    look->next = at == look->from;
    return ++look->seen < DEEP ? _URC_NO_REASON : _URC_END_OF_STACK;
}

/* The recorder itself, libuv and the C library call callbacks, threads and `main`: that tells nothing. */
static bool is_program(uintptr_t at) {
    Dl_info here, info;
    if (is_text_of_libuv((const void *)at) || !dladdr((const void *)at, &info) || !info.dli_fname) return false;
    if (dladdr((const void *)is_program, &here) && here.dli_fbase == info.dli_fbase) return false;
    const char *name = strrchr(info.dli_fname, '/');
    name = name ? name + 1 : info.dli_fname;
    return strncmp(name, "libc.so", 7) != 0 && strncmp(name, "libc-", 5) != 0 && strncmp(name, "libpthread", 10) != 0;
}

static int caller_of(int place, const void *from) {
    static unsigned char calls[MANY];
    if (place < 0 || place >= MANY || calls[place] >= EACH || forces()) return -1;
    calls[place]++;
    struct look look = {.from = (uintptr_t)from};
    _Unwind_Backtrace(see_frame, &look);
    return look.found && is_program(look.found) ? call_number((const void *)look.found) : -1;
}

int caller_numbers(bool all, int place, const void *from, int *found) {
    uintptr_t at[CALLERS];
    int deep = all && !forces() ? stack_behind(from, at, CALLERS) : 0, count = 0;
    for (int it = 0; it < deep; it++) {
        int number = call_number((const void *)at[it]);
        if (number >= 0) found[count++] = number;
    }
    if (deep) return count;
    int number = caller_of(place, from);
    if (number >= 0) found[count++] = number;
    return count;
}
