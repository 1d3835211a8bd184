/* The bridges of the recorder's hooks (tools/uvt/record/recorder/jumps.c): small functions, each with another beginning, get a jump to `instead`,
 * and their bridges have to do what they did. Others have to be refused. Prints what is wrong, and at its end `ok` or `wrong`. */
#include "symbols.c"
#include "jumps.c"

#include <stdio.h>

void note_unseen(const char *function, const char *why) {
    (void)function, (void)why;
}

void add_text_of_libuv(uintptr_t from, uintptr_t to) {
    (void)from, (void)to;
}

bool knows_libuv(void) {
    return false;
}

bool off, filtered, attaches;
void lock(void) {}
void unlock(void) {}

int value = 5;
int add_one(int x);

__asm__(".text\n"
        /* NAME, CODE: at a multiple of 16, with its size; what is behind is filled with nops */
        ".macro begin name\n .p2align 4\n .globl \\name\n .type \\name,@function\n\\name:\n .endm\n"
        ".macro end name\n .size \\name, .-\\name\n .endm\n"
        "begin add_one\n lea 1(%rdi),%eax\n ret\n end add_one\n"
        "begin b_rip\n mov value(%rip),%eax\n add %edi,%eax\n ret\n end b_rip\n"
        "begin b_rip_word\n cmpl $5,value(%rip)\n sete %al\n movzbl %al,%eax\n add %edi,%eax\n ret\n end b_rip_word\n"
        "begin b_jump_if\n test %edi,%edi\n je 1f\n lea 2(%rdi),%eax\n ret\n1: mov $9,%eax\n ret\n end b_jump_if\n"
        "begin b_call\n call add_one\n inc %eax\n ret\n end b_call\n"
        "begin b_tail\n jmp add_one\n end b_tail\n"
        "begin b_short_tail\n .byte 0xeb, 0x0e\n end b_short_tail\n"
        "begin b_behind\n lea 3(%rdi),%eax\n ret\n end b_behind\n"
        "begin b_branch\n endbr64\n lea 4(%rdi),%eax\n ret\n end b_branch\n"
        "begin b_guard\n mov %fs:0x28,%rax\n lea 5(%rdi),%eax\n ret\n end b_guard\n"
        "begin b_pushes\n push %rbx\n mov %edi,%ebx\n lea 6(%rbx),%eax\n pop %rbx\n ret\n end b_pushes\n"
        "begin b_early_return\n mov %edi,%eax\n ret\n end b_early_return\n"
        "begin b_again\n xor %eax,%eax\n1: inc %eax\n dec %edi\n jnz 1b\n ret\n end b_again\n"
        "begin b_loops\n mov %edi,%ecx\n loop 1f\n1: mov %ecx,%eax\n ret\n end b_loops\n"
        "begin b_too_short\n xor %eax,%eax\n ret\n end b_too_short\n"
        " mov %edi,%eax\n ret\n");

#define FUNCTION(name) int name(int x);
#define HOOKED(DO) DO(b_rip) DO(b_rip_word) DO(b_jump_if) DO(b_call) DO(b_tail) DO(b_short_tail) DO(b_branch) DO(b_guard) DO(b_pushes) \
    DO(b_early_return)
#define REFUSED(DO) DO(b_again) DO(b_loops) DO(b_too_short)
HOOKED(FUNCTION)
REFUSED(FUNCTION)

static int instead(int x) {
    return 1000 + x;
}

static size_t size_of(const uint8_t *code) {
    Dl_info info;
    const Elf64_Sym *symbol;
    return dladdr1(code, &info, (void **)&symbol, RTLD_DL_SYMENT) && symbol ? symbol->st_size : 0;
}

static int wrong;

static void try_one(const char *name, int (*code)(int), const char *wanted) {
    struct function function = {name, (uintptr_t)code, size_of((uint8_t *)code), .known = true};
    int before[3], x;
    for (x = 0; x < 3; x++) before[x] = wanted ? 0 : code(x);
    const char *why = make_bridge(&function, (void *)instead);
    if ((why == NULL) != (wanted == NULL) || (why && strcmp(why, wanted) != 0)) {
        printf("%s: %s\n", name, why ? why : "it was hooked");
        wrong++;
    }
    if (why) return;
    protect(function.at, function.at + 8, PROT_READ | PROT_WRITE | PROT_EXEC);
    put_jump(&function);
    for (x = 0; x < 3; x++)
        if (code(x) != 1000 + x || ((int (*)(int))function.bridge)(x) != before[x]) {
            printf("%s: %d of %d\n", name, ((int (*)(int))function.bridge)(x), x);
            wrong++;
        }
}

int main(void) {
    Dl_info here;
    dladdr((void *)main, &here);
    if (!open_capstone() || !make_room((uintptr_t)here.dli_fbase, 64)) return 2;
    protect((uintptr_t)bridges, (uintptr_t)bridges + bridges_size, PROT_READ | PROT_WRITE | PROT_EXEC);
#define TRY(name) try_one(#name, name, NULL);
    HOOKED(TRY)
    try_one("b_again", b_again, "a jump leads into its first bytes");
    try_one("b_loops", b_loops, "an instruction can't be moved");
    try_one("b_too_short", b_too_short, "it is too short");
    puts(wrong ? "wrong" : "ok");
    return wrong != 0;
}
