/* A filter of system calls (seccomp): the program's first word of one. (Whoever loads one without being root says first that no new privileges are
 * wanted.) What is done ahead of it stands in window.c. */
#define _GNU_SOURCE
#include "recorder.h"

#include <stdarg.h>
#include <sys/prctl.h>

REAL(prctl)

int prctl(int option, ...) {
    va_list words;
    va_start(words, option);
    unsigned long two = va_arg(words, unsigned long), three = va_arg(words, unsigned long);
    unsigned long four = va_arg(words, unsigned long), five = va_arg(words, unsigned long);
    va_end(words);
    if (option == PR_SET_SECCOMP || option == PR_SET_NO_NEW_PRIVS) before_filter();
    return CALL(prctl)(option, two, three, four, five);
}
