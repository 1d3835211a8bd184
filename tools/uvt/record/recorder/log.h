/* What the files of the log have in common: its lines (log.c), its file (window.c), and what a thread had of a time (usage.c). */
#ifndef LOG_H
#define LOG_H

#include "recorder.h"

#pragma GCC visibility push(hidden)

enum { LINE = 4096 };

/* ---- the file (window.c) */

/* Its name begins so: false where that is too long. */
bool name_log(const char *named);
extern bool is_open;
bool open_log(void);
void write_text(const char *text, size_t length);
/* The lines to which others refer: in a ring they stand apart. */
void write_word(const char *text, size_t length);
/* The program ends: what wasn't written of the last window goes. */
void cut_log(void);

/* ---- what a thread had of a time (usage.c) */

/* A callback or work that took less isn't told. */
enum { SHORT = 2 };

/* A callback or work begins or ends, by this clock; what the thread had of the processor as it begins stands in `used`, and what it used as it ends
 * is to stand there. Is that known? */
bool note_time(struct loop *loop, char type, uint64_t clock, struct usage *used, uint64_t *took);

#pragma GCC visibility pop

#endif
