/* What the files of a libuv within a program have in common: symbols.c knows its functions, jumps.c has the recorder's called in their place, and
 * hooks.c says when. */
#ifndef HOOKS_H
#define HOOKS_H

#include "recorder.h"

#include <elf.h>

#pragma GCC visibility push(hidden)

/* ---- the functions of a file that are libuv's (symbols.c) */

struct function {
    const char *name;
    uintptr_t at;
    size_t size;
    void *bridge; /* NULL where the function is as it was */
    size_t moved; /* so many of its first bytes are done there */
    bool known; /* by its name: else it is a local one of libuv's file fs-poll.c */
    bool ends; /* a function of somebody else comes next */
};

/* By where they are. */
extern struct function *functions;
extern int function_count;

/* A file that is read, and where it was loaded. */
struct file {
    const char *name;
    uintptr_t moved, lowest, highest; /* by how much it was moved; where it begins, and ends */
    char *data;
    size_t size;
    const Elf64_Sym *symbols;
    size_t symbol_count;
    const char *names;
    size_t names_size;
};

/* Maps it, with its symbols: false where that can't be. (It stays mapped: names lie in it.) */
bool read_file(struct file *file);
void list_functions(const struct file *file);
void forget_functions(struct file *file);
/* Where functions of somebody else lie between. (Local ones that do are libuv's own.) */
void find_ends(const struct file *file);
/* The one of this name, NULL if there is none. */
struct function *function_of(const char *name);
/* The text of libuv: functions that follow one another. */
void tell_text(void);

/* ---- their jumps to the recorder's (jumps.c) */

/* Why there can't be any, NULL where there are. */
const char *hook_functions(uintptr_t lowest);

/* ---- what the program's linker has left out (left_out.c): NULL of all else */

void *left_out(const char *name);

#pragma GCC visibility pop

#endif
