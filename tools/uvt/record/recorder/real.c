/* The real functions, of libuv and of the C library: where they are, and whether it is libuv itself that calls one of its own. */
#define _GNU_SOURCE
#include "recorder.h"

#include <dlfcn.h>
#include <link.h>
#include <string.h>

__thread int inside;
__thread const char *called;
__thread const void *called_from;
static struct text {
    uintptr_t from, to;
} texts[8]; /* of libuv */
static int text_count;

static int missing(void) {
    return UV_ENOSYS;
}

void add_text_of_libuv(uintptr_t from, uintptr_t to) {
    if (text_count < (int)(sizeof texts / sizeof *texts)) texts[text_count++] = (struct text){from, to};
}

bool knows_libuv(void) {
    return text_count > 0;
}

static int find_text(struct dl_phdr_info *info, size_t size, void *none) {
    (void)size, (void)none;
    if (!strstr(info->dlpi_name, "libuv.so")) return 0;
    for (int at = 0; at < info->dlpi_phnum; at++) {
        const ElfW(Phdr) *part = &info->dlpi_phdr[at];
        if (part->p_type != PT_LOAD || !(part->p_flags & PF_X)) continue;
        uintptr_t from = info->dlpi_addr + part->p_vaddr;
        add_text_of_libuv(from, from + part->p_memsz);
    }
    return 1;
}

bool is_libuv_there(void) {
    void *found = has_own_libuv() ? NULL : dlopen("libuv.so.1", RTLD_LAZY | RTLD_NOLOAD);
    if (found) dlclose(found);
    return found || has_own_libuv();
}

/* The function of this name, of libuv or of the C library. The recorder isn't linked with libuv, so that a program
 * without it doesn't get it; and one may come by dlopen. */
static void *look_up(const char *name) {
    static void *libuv;
    if (strncmp(name, "uv_", 3) != 0) return dlsym(RTLD_NEXT, name);
    if (has_own_libuv()) {
        void *own = own_function(name);
        return own ? own : (void *)missing;
    }
    if (!libuv) {
        libuv = dlopen("libuv.so.1", RTLD_LAZY | RTLD_NOLOAD);
        if (!libuv) libuv = dlopen("libuv.so.1", RTLD_LAZY);
        dl_iterate_phdr(find_text, NULL);
    }
    void *found = libuv ? dlsym(libuv, name) : NULL;
    return found ? found : (void *)missing;
}

void *real(const char *name, void **kept) {
    void *found = __atomic_load_n(kept, __ATOMIC_ACQUIRE);
    if (found) return found;
    found = look_up(name);
    __atomic_store_n(kept, found, __ATOMIC_RELEASE);
    return found;
}

bool is_from_libuv(const void *caller) {
    return off || inside > 0 || is_text_of_libuv(caller);
}

bool is_text_of_libuv(const void *caller) {
    uintptr_t at = (uintptr_t)caller;
    for (int it = 0; it < text_count; it++)
        if (at >= texts[it].from && at < texts[it].to) return true;
    return false;
}

bool is_inside(const void *caller, const char *function) {
    if (is_from_libuv(caller)) return true;
    see_caller(caller);
    called = function;
    called_from = caller;
    if (forces()) force_before(function);
    return false;
}
