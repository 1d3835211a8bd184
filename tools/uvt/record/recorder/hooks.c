/* A libuv within the program, or within a library that isn't libuv's: its functions are called without the dynamic linker, so a library that
 * is preloaded doesn't come before them. Each of them that the recorder stands before gets a jump to the recorder's (jumps.c).
 *
 * Of the program this is done before it begins, so while nobody runs in it. Of a library that comes later it is done as libuv makes the first
 * epoll descriptor of a loop: so before there is a handle. */
#define _GNU_SOURCE
#include "hooks.h"

#include <dlfcn.h>
#include <link.h>
#include <stdio.h>
#include <string.h>
#include <unistd.h>

enum { REFUSED = 70 }; /* the status of a program that is ended */
bool attaches;
static bool own; /* the functions are those of a libuv within a file */

/* Why a libuv within the program can't be recorded beside the library libuv, which another library uses: they are of two versions, and the
 * recorder, which comes before both, has one. NULL where there is no such library, or it is of the same version. */
static const char *why_not_beside(void) {
    static char why[200];
    const char *(*version)(void), *within = ((const char *(*)(void))own_function("uv_version_string"))();
    void *library = dlopen("libuv.so.1", RTLD_LAZY | RTLD_NOLOAD);
    version = library ? (const char *(*)(void))dlsym(library, "uv_version_string") : NULL;
    bool differs = version && strcmp(version(), within) != 0;
    if (differs)
        snprintf(why, sizeof why, "there are two, %s within the program and %s as a library, and the recorder can't tell who calls which", within,
                 version());
    if (library) dlclose(library);
    return differs ? why : NULL;
}

static uintptr_t own_from, own_to; /* the file that has it */

void see_caller(const void *caller) {
    enum { CALLERS = 256 };
    static const void *seen[CALLERS];
    const void **at = &seen[((uintptr_t)caller * 0x9E3779B97F4A7C15u) >> 56];
    if (!own || ((uintptr_t)caller >= own_from && (uintptr_t)caller < own_to) || *at == caller) return;
    *at = caller;
    const char *why = why_not_beside();
    if (!why) return;
    fprintf(stderr, "uvt-record: %s: the program is ended\n", why);
    note_unseen(NULL, why);
    _exit(REFUSED);
}

/* Looks for a libuv within a file that is loaded, and hooks it. (The file stays mapped then: names lie in it.) */
static void hook_file(struct file file) {
    const char *beside = NULL;
    if (own || !read_file(&file)) return;
    list_functions(&file);
    own = function_of("uv_run") && function_of("uv_loop_init");
    if (!own || (beside = why_not_beside())) {
        own = false;
        forget_functions(&file);
        if (beside) note_unseen(NULL, beside);
        return;
    }
    own_from = file.lowest, own_to = file.highest;
    find_ends(&file);
    tell_text();
    const char *why = hook_functions(file.lowest);
    if (why) note_unseen(NULL, why);
}

/* The file within which an address lies; the first one, the program, where that is NULL. */
struct asked_file {
    struct file file;
    const void *address;
    bool found;
};

static int ask_file(struct dl_phdr_info *info, size_t size, void *word) {
    struct asked_file *asked = word;
    uintptr_t lowest = UINTPTR_MAX, highest = 0, address = (uintptr_t)asked->address;
    bool within = !address;
    (void)size;
    for (int at = 0; at < info->dlpi_phnum; at++) {
        const ElfW(Phdr) *part = &info->dlpi_phdr[at];
        uintptr_t from = info->dlpi_addr + part->p_vaddr;
        if (part->p_type != PT_LOAD) continue;
        if (from < lowest) lowest = from;
        if (from + part->p_memsz > highest) highest = from + part->p_memsz;
        within |= address >= from && address < from + part->p_memsz;
    }
    if (!within) return 0;
    asked->found = true;
    const char *name = *info->dlpi_name ? info->dlpi_name : "/proc/self/exe";
    asked->file = (struct file){.name = name, .moved = info->dlpi_addr, .lowest = lowest, .highest = highest};
    return 1;
}

void hook_program(void) {
    struct asked_file asked = {.address = NULL};
    if (dl_iterate_phdr(ask_file, &asked)) hook_file(asked.file);
}

static int ask_library(struct dl_phdr_info *info, size_t size, void *word) {
    struct asked_file *asked = word;
    if (!strstr(info->dlpi_name, "libuv.so")) return 0;
    asked->address = (const void *)(info->dlpi_addr + info->dlpi_phdr[0].p_vaddr);
    for (int at = 0; at < info->dlpi_phnum; at++) {
        const ElfW(Phdr) *part = &info->dlpi_phdr[at];
        uintptr_t from = info->dlpi_addr + part->p_vaddr;
        if (part->p_type != PT_LOAD) continue;
        if (part->p_flags & PF_X) {
            add_text_of_libuv(from, from + part->p_memsz);
            asked->address = (const void *)from;
        }
    }
    return ask_file(info, size, asked);
}

void hook_library(void) {
    struct asked_file asked = {.address = NULL};
    if (dl_iterate_phdr(ask_library, &asked)) hook_file(asked.file);
}

/* (the program was looked at already, a file is looked at once, and of two libuvs in a process the first is recorded) */
void hook_caller(const void *caller) {
    enum { FILES = 16 };
    static uintptr_t seen[FILES];
    struct asked_file asked = {.address = caller};
    if (off || filtered || knows_libuv()) return;
    lock();
    if (dl_iterate_phdr(ask_file, &asked) && strcmp(asked.file.name, "/proc/self/exe") != 0 && !strstr(asked.file.name, "libuv.so")) {
        int at = 0;
        while (at < FILES && seen[at] && seen[at] != asked.file.lowest) at++;
        if (at < FILES && !seen[at]) {
            seen[at] = asked.file.lowest;
            hook_file(asked.file);
        }
    }
    unlock();
}

bool has_own_libuv(void) {
    return own;
}

void *own_function(const char *name) {
    const struct function *function = function_of(name);
    if (!function) return left_out(name);
    return function->bridge ? function->bridge : (void *)function->at;
}
