// Lets a program begin once and run many times: tests/fuzz compiles it and gives it to the program by LD_PRELOAD.
//
// Before main it waits for a byte on CONTROL. For each one it forks: the child goes on to main, over standard input, output and errors
// as they are then, and on ANSWERS stand the child's number and, once it has ended, its status as waitpid has it.
#include <stdint.h>
#include <sys/wait.h>
#include <unistd.h>

enum { CONTROL = 198, ANSWERS = 199 };

static void answer(int32_t number) {
    if (write(ANSWERS, &number, sizeof number) != sizeof number)
        _exit(1);
}

__attribute__((constructor)) static void serve(void) {
    char again;
    while (read(CONTROL, &again, 1) == 1) {
        pid_t child = fork();
        if (child == 0) {
            close(CONTROL);
            close(ANSWERS);
            return;
        }
        int status = 0;
        answer((int32_t)child);
        while (child > 0 && waitpid(child, &status, 0) != child)
            ;
        answer((int32_t)status);
    }
    _exit(0);
}
