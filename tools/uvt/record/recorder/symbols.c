/* The functions of a file that are libuv's, by its symbol table, or its dynamic symbols. */
#define _GNU_SOURCE
#include "hooks.h"

#include <fcntl.h>
#include <stdlib.h>
#include <string.h>
#include <sys/mman.h>
#include <sys/stat.h>
#include <unistd.h>

struct function *functions;
int function_count;

enum { APART = 1 << 16 }; /* functions of libuv don't lie farther apart */

static bool is_of_libuv(const char *name) {
    return strncmp(name, "uv_", 3) == 0;
}

static const char *name_of(const struct file *file, const Elf64_Sym *symbol) {
    return symbol->st_name < file->names_size ? file->names + symbol->st_name : "";
}

static bool is_function(const Elf64_Sym *symbol) {
    return ELF64_ST_TYPE(symbol->st_info) == STT_FUNC && symbol->st_shndx != SHN_UNDEF;
}

/* Its symbol table; the dynamic symbols where it was stripped of that. */
static bool find_symbols(struct file *file) {
    const Elf64_Ehdr *head = (const void *)file->data;
    if (file->size < sizeof *head || memcmp(head->e_ident, ELFMAG, SELFMAG) != 0 || head->e_ident[EI_CLASS] != ELFCLASS64) return false;
    if (head->e_shentsize != sizeof(Elf64_Shdr) || head->e_shoff > file->size) return false;
    const Elf64_Shdr *sections = (const void *)(file->data + head->e_shoff);
    if (head->e_shnum > (file->size - head->e_shoff) / sizeof *sections) return false;
    for (int at = 0; at < head->e_shnum; at++) {
        const Elf64_Shdr *it = &sections[at];
        if (it->sh_type != SHT_SYMTAB && (it->sh_type != SHT_DYNSYM || file->symbols)) continue;
        if (it->sh_link >= head->e_shnum) continue;
        const Elf64_Shdr *names = &sections[it->sh_link];
        if (it->sh_offset > file->size || it->sh_size > file->size - it->sh_offset) continue;
        if (names->sh_offset > file->size || names->sh_size > file->size - names->sh_offset || !names->sh_size) continue;
        if (file->data[names->sh_offset + names->sh_size - 1]) continue;
        file->symbols = (const void *)(file->data + it->sh_offset);
        file->symbol_count = it->sh_size / sizeof *file->symbols;
        file->names = file->data + names->sh_offset;
        file->names_size = names->sh_size;
    }
    return file->symbols != NULL;
}

bool read_file(struct file *file) {
    struct stat about;
    int descriptor = open(file->name, O_RDONLY | O_CLOEXEC);
    if (descriptor < 0) return false;
    file->data = MAP_FAILED;
    if (fstat(descriptor, &about) == 0 && about.st_size > 0) {
        file->size = (size_t)about.st_size;
        file->data = mmap(NULL, file->size, PROT_READ, MAP_PRIVATE, descriptor, 0);
    }
    close(descriptor);
    if (file->data == MAP_FAILED) return false;
    if (find_symbols(file)) return true;
    munmap(file->data, file->size);
    return false;
}

static int by_place(const void *one, const void *other) {
    uintptr_t a = ((const struct function *)one)->at, b = ((const struct function *)other)->at;
    return a < b ? -1 : a > b;
}

/* (a symbol of the kind FILE stands in front of the local ones of that source: callbacks in fs-poll.c have names as anybody's) */
void list_functions(const struct file *file) {
    for (int round = 0; round < 2; round++) {
        bool in_fs_poll = false;
        function_count = 0;
        for (size_t at = 0; at < file->symbol_count; at++) {
            const Elf64_Sym *it = &file->symbols[at];
            const char *name = name_of(file, it);
            if (ELF64_ST_TYPE(it->st_info) == STT_FILE) in_fs_poll = strncmp(name, "fs-poll.c", 9) == 0;
            bool local = ELF64_ST_BIND(it->st_info) == STB_LOCAL, known = is_of_libuv(name);
            if (!is_function(it) || !(known || (local && in_fs_poll)) || strstr(name, ".cold")) continue;
            if (round) functions[function_count] = (struct function){name, file->moved + it->st_value, it->st_size, .known = known};
            function_count++;
        }
        if (round == 0) functions = calloc((size_t)function_count + 1, sizeof *functions);
        if (!functions) function_count = 0;
    }
    qsort(functions, (size_t)function_count, sizeof *functions, by_place);
}

/* The last function that begins there or before; -1 if there is none. */
static int function_at(uintptr_t at) {
    int low = 0, high = function_count;
    while (low < high) {
        int middle = (low + high) / 2;
        if (functions[middle].at <= at) low = middle + 1;
        else high = middle;
    }
    return low - 1;
}

void find_ends(const struct file *file) {
    for (size_t at = 0; at < file->symbol_count; at++) {
        const Elf64_Sym *it = &file->symbols[at];
        if (!is_function(it) || ELF64_ST_BIND(it->st_info) == STB_LOCAL || is_of_libuv(name_of(file, it))) continue;
        int before = function_at(file->moved + it->st_value);
        if (before >= 0) functions[before].ends = true;
    }
    for (int at = 0; at + 1 < function_count; at++) functions[at].ends |= functions[at + 1].at - functions[at].at - functions[at].size > APART;
}

struct function *function_of(const char *name) {
    for (int at = 0; at < function_count; at++)
        if (functions[at].known && strcmp(functions[at].name, name) == 0) return &functions[at];
    return NULL;
}

void tell_text(void) {
    for (int at = 0, from = 0; at < function_count; at++) {
        if (at + 1 < function_count && !functions[at].ends) continue;
        bool known = false;
        for (int it = from; it <= at; it++) known |= functions[it].known;
        if (known) add_text_of_libuv(functions[from].at, functions[at].at + functions[at].size);
        from = at + 1;
    }
}

void forget_functions(struct file *file) {
    free(functions);
    functions = NULL;
    function_count = 0;
    munmap(file->data, file->size);
}
