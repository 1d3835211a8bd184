/* Jumps from a program's functions to the recorder's: each is a function's first instruction. What stood there is done at another place, its bridge,
 * and goes on behind the jump: the bridge is the real function then. */
#define _GNU_SOURCE
#include "hooks.h"

#include <dlfcn.h>
#include <string.h>
#include <sys/mman.h>
#include <unistd.h>

#if defined __x86_64__ && __has_include(<capstone/capstone.h>)
#include <capstone/capstone.h>
#define CAN_HOOK 1
#endif

#ifdef CAN_HOOK

/* ---- instructions */

enum { JUMP = 5, ENTRY = 14, SLOT = 96, MOST = 15 };

#define TEXT(x) TEXT_OF(x)
#define TEXT_OF(x) #x
#define CAPSTONE "libcapstone.so." TEXT(CS_API_MAJOR)

/* capstone, while functions are hooked. */
static struct {
    void *library;
    __typeof__(cs_open) *open;
    __typeof__(cs_close) *close;
    __typeof__(cs_option) *option;
    __typeof__(cs_malloc) *malloc;
    __typeof__(cs_free) *free;
    __typeof__(cs_disasm_iter) *next;
    csh handle;
    cs_insn *insn;
} capstone;

static bool open_capstone(void) {
    capstone.library = dlopen(CAPSTONE, RTLD_NOW | RTLD_LOCAL);
    if (!capstone.library) return false;
    capstone.open = (__typeof__(cs_open) *)dlsym(capstone.library, "cs_open");
    capstone.close = (__typeof__(cs_close) *)dlsym(capstone.library, "cs_close");
    capstone.option = (__typeof__(cs_option) *)dlsym(capstone.library, "cs_option");
    capstone.malloc = (__typeof__(cs_malloc) *)dlsym(capstone.library, "cs_malloc");
    capstone.free = (__typeof__(cs_free) *)dlsym(capstone.library, "cs_free");
    capstone.next = (__typeof__(cs_disasm_iter) *)dlsym(capstone.library, "cs_disasm_iter");
    if (!capstone.open || !capstone.close || !capstone.option || !capstone.malloc || !capstone.free || !capstone.next) return false;
    if (capstone.open(CS_ARCH_X86, CS_MODE_64, &capstone.handle) != CS_ERR_OK) return false;
    capstone.option(capstone.handle, CS_OPT_DETAIL, CS_OPT_ON);
    capstone.insn = capstone.malloc(capstone.handle);
    return capstone.insn != NULL;
}

static void close_capstone(void) {
    if (capstone.insn) capstone.free(capstone.insn, 1);
    if (capstone.handle) capstone.close(&capstone.handle);
    if (capstone.library) dlclose(capstone.library);
    memset(&capstone, 0, sizeof capstone);
}

/* The instruction that stands there, with `room` bytes up to where the function ends. */
static const cs_insn *instruction(uintptr_t at, size_t room) {
    const uint8_t *code = (const uint8_t *)at;
    uint64_t address = at;
    return capstone.next(capstone.handle, &code, &room, &address, capstone.insn) ? capstone.insn : NULL;
}

static bool is_in(const cs_insn *insn, uint8_t group) {
    for (int at = 0; at < insn->detail->groups_count; at++)
        if (insn->detail->groups[at] == group) return true;
    return false;
}

/* Where a jump or call leads that says so itself; 0 if it is another instruction. (`loop` and `jrcxz` are in no group.) */
static uintptr_t leads_to(const cs_insn *insn) {
    const cs_x86 *x86 = &insn->detail->x86;
    bool leads = is_in(insn, CS_GRP_JUMP) || is_in(insn, CS_GRP_CALL) || is_in(insn, CS_GRP_BRANCH_RELATIVE) || (x86->opcode[0] & 0xfc) == 0xe0;
    return leads && x86->op_count == 1 && x86->operands[0].type == X86_OP_IMM ? (uintptr_t)x86->operands[0].imm : 0;
}

static bool is_end(const cs_insn *insn) {
    return insn->id == X86_INS_JMP || is_in(insn, CS_GRP_RET);
}

static bool is_padding(const cs_insn *insn) {
    return insn->id == X86_INS_NOP || insn->id == X86_INS_INT3;
}

/* Puts `to - (at + 4)` at `at`. */
static bool put_distance(uint8_t *at, uintptr_t to) {
    int64_t distance = (int64_t)(to - (uintptr_t)(at + 4));
    int32_t word = (int32_t)distance;
    memcpy(at, &word, sizeof word);
    return word == distance;
}

/* The same instruction at another place. Answers how long it is there, 0 where it can't be moved. */
static size_t move(const cs_insn *insn, uint8_t *to) {
    const cs_x86 *x86 = &insn->detail->x86;
    uintptr_t target = leads_to(insn);
    if (target) {
        uint8_t *opcode = to;
        if (insn->id == X86_INS_CALL) *opcode++ = 0xe8;
        else if (insn->id == X86_INS_JMP) *opcode++ = 0xe9;
        else if (x86->opcode[0] == 0x0f || (x86->opcode[0] & 0xf0) == 0x70) {
            *opcode++ = 0x0f;
            *opcode++ = 0x80 | (x86->opcode[x86->opcode[0] == 0x0f] & 0x0f);
        } else return 0;
        return put_distance(opcode, target) ? (size_t)(opcode + 4 - to) : 0;
    }
    memcpy(to, insn->bytes, insn->size);
    for (int at = 0; at < x86->op_count; at++) {
        if (x86->operands[at].type != X86_OP_MEM || x86->operands[at].mem.base != X86_REG_RIP) continue;
        uint8_t offset = x86->encoding.disp_offset;
        if (!offset || x86->encoding.disp_size != 4) return 0;
        /* (the distance counts from behind the instruction) */
        int64_t distance = x86->disp + (int64_t)(insn->address - (uintptr_t)to);
        int32_t word = (int32_t)distance;
        if (word != distance) return 0;
        memcpy(to + offset, &word, sizeof word);
        break;
    }
    return insn->size;
}

/* ---- bridges: a jump to the recorder's function, and behind it what stood in front */

static uint8_t *bridges; /* near the file, so that jumps reach them */
static size_t bridges_used, bridges_size;

static bool make_room(uintptr_t lowest, size_t count) {
    bridges_size = (count * SLOT + 0xffff) & ~(size_t)0xffff;
    for (uintptr_t at = (lowest & ~(uintptr_t)0xffff) - bridges_size; at > 0x10000 && lowest - at < (1u << 30); at -= 0x10000) {
        void *got = mmap((void *)at, bridges_size, PROT_READ | PROT_WRITE, MAP_PRIVATE | MAP_ANONYMOUS | MAP_FIXED_NOREPLACE, -1, 0);
        if (got == (void *)at) {
            bridges = got;
            return true;
        }
        if (got != MAP_FAILED) munmap(got, bridges_size);
    }
    return false;
}

/* Does a jump of the function lead into its first bytes, behind the first one? */
static bool is_led_into(const struct function *function, size_t taken) {
    uintptr_t end = function->at + function->size;
    for (uintptr_t at = function->at; at < end;) {
        const cs_insn *insn = instruction(at, end - at);
        if (!insn) return false;
        uintptr_t target = leads_to(insn);
        if (target > function->at && target < function->at + taken) return true;
        at += insn->size;
    }
    return false;
}

/* Makes the bridge of a function; why that can't be, NULL where it is made. (What comes behind a jump away or a return is never done: it has
 * to be what lies between functions.) */
static const char *make_bridge(struct function *function, void *instead) {
    uint8_t *slot = bridges + bridges_used, *to = slot + ENTRY;
    size_t taken = 0;
    bool ended = false;
    if (bridges_used + SLOT > bridges_size) return "there is no room";
    while (taken < JUMP) {
        const cs_insn *insn = instruction(function->at + taken, MOST);
        if (!insn) return "an instruction isn't known";
        taken += insn->size;
        if (ended || taken > function->size) {
            if (!ended || !is_padding(insn)) return "it is too short";
            continue;
        }
        size_t size = move(insn, to);
        if (!size) return "an instruction can't be moved";
        /* (a thread may have to come back behind it) */
        if (attaches && is_in(insn, CS_GRP_CALL) && taken < JUMP) return "it calls within its first bytes";
        to += size;
        ended = is_end(insn);
    }
    if (is_led_into(function, taken)) return "a jump leads into its first bytes";
    if (!ended) {
        *to++ = 0xe9;
        if (!put_distance(to, function->at + taken)) return "it is too far";
    }
    /* jmp *0(%rip) */
    memcpy(slot, (const uint8_t[]){0xff, 0x25, 0, 0, 0, 0}, 6);
    memcpy(slot + 6, &instead, sizeof instead);
    function->bridge = slot + ENTRY;
    function->moved = taken;
    bridges_used += SLOT;
    return NULL;
}

static void jump_of(const struct function *function, uint8_t jump[JUMP]) {
    int32_t distance = (int32_t)((uint8_t *)function->bridge - ENTRY - ((uint8_t *)function->at + JUMP));
    jump[0] = 0xe9;
    memcpy(jump + 1, &distance, sizeof distance);
}

/* (Most functions begin at a multiple of 16: then the jump comes in one piece.) */
static void put_jump(const struct function *function) {
    uint8_t *entry = (uint8_t *)function->at;
    union {
        uint64_t word;
        uint8_t bytes[8];
    } first;
    memcpy(&first, entry, sizeof first);
    jump_of(function, first.bytes);
    if (function->at % 8 == 0) __atomic_store_n((uint64_t *)entry, first.word, __ATOMIC_SEQ_CST);
    else memcpy(entry, first.bytes, JUMP);
}

static bool protect(uintptr_t from, uintptr_t to, int how) {
    uintptr_t page = (uintptr_t)sysconf(_SC_PAGESIZE);
    from &= ~(page - 1);
    return mprotect((void *)from, (to + page - 1 - from) & ~(page - 1), how) == 0;
}

/* ---- all of them */

/* A function that lies where another one does (the linker may put equal ones together) has its bridge. */
static struct function *same_place(const struct function *function) {
    struct function *before = (struct function *)function - 1;
    return function > functions && before->at == function->at && before->bridge ? before : NULL;
}

/* Of those that wait it is enough to see what they ask of the C library, unless an order is forced: its gates stand there. */
static bool waits(const char *name) {
#ifdef FORCE
    (void)name;
    return false;
#else
    static const char *const all[] = {"uv_mutex_lock", "uv_rwlock_rdlock", "uv_rwlock_wrlock", "uv_cond_wait", "uv_cond_timedwait",
                                      "uv_sem_wait", "uv_barrier_wait", "uv_thread_join", "uv_sleep"};
    for (size_t at = 0; at < sizeof all / sizeof *all; at++)
        if (strcmp(name, all[at]) == 0) return true;
    return false;
#endif
}

/* The bridges of all functions that the recorder stands before. */
static void make_bridges(void *recorder) {
    for (int at = 0; at < function_count; at++) {
        struct function *function = &functions[at], *same = same_place(function);
        void *instead = function->known && !waits(function->name) ? dlsym(recorder, function->name) : NULL;
        if (!instead) continue;
        const char *why = same ? NULL : make_bridge(function, instead);
        if (same) function->bridge = same->bridge;
        if (why) note_unseen(function->name, why);
    }
}

static void put_jumps(void);

const char *hook_functions(uintptr_t lowest) {
    Dl_info here;
    void *recorder = dladdr((void *)hook_functions, &here) ? dlopen(here.dli_fname, RTLD_LAZY | RTLD_NOLOAD) : NULL;
    if (!recorder) return "the recorder doesn't find itself";
    if (!open_capstone()) {
        close_capstone();
        return CAPSTONE " can't be loaded (Debian: libcapstone4)";
    }
    if (!make_room(lowest, (size_t)function_count)) {
        close_capstone();
        return "there is no memory near the program's functions";
    }
    make_bridges(recorder);
    close_capstone();
    protect((uintptr_t)bridges, (uintptr_t)bridges + bridges_size, PROT_READ | PROT_EXEC);
    if (!attaches) put_jumps();
    return NULL;
}

static void put_jumps(void) {
    for (int at = 0; at < function_count; at++) {
        struct function *function = &functions[at];
        if (!function->bridge || same_place(function)) continue;
        uintptr_t from = function->at, to = function->at + sizeof(uint64_t);
        if (!protect(from, to, PROT_READ | PROT_WRITE | PROT_EXEC)) {
            function->bridge = NULL;
            note_unseen(function->name, "the system doesn't let its code be changed");
            continue;
        }
        put_jump(function);
        protect(from, to, PROT_READ | PROT_EXEC);
    }
}

void each_jump(void (*take)(void *at, const uint8_t *jump, size_t size, size_t moved)) {
    for (int at = 0; at < function_count; at++) {
        uint8_t jump[JUMP];
        if (!functions[at].bridge || same_place(&functions[at])) continue;
        jump_of(&functions[at], jump);
        take((void *)functions[at].at, jump, sizeof jump, functions[at].moved);
    }
}

#else

void each_jump(void (*take)(void *at, const uint8_t *jump, size_t size, size_t moved)) {
    (void)take;
}

const char *hook_functions(uintptr_t lowest) {
    (void)lowest;
#ifdef __x86_64__
    return "the recorder was compiled without capstone (Debian: libcapstone-dev)";
#else
    return "on this machine the recorder knows no libuv within a program, but on x86-64 alone";
#endif
}

#endif
