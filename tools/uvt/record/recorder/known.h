/* What came with a callback of I/O, in the log's words. */
#ifndef KNOWN_H
#define KNOWN_H

#include "recorder.h"

#include <string.h>

/* A word or two of it: how many bytes, a status, .. */
struct known {
    char text[40];
};

static inline struct known status_known(int status) {
    struct known known;
    const char *text = answer_text(status);
    if (strchr(text, ' ') || strlen(text) >= sizeof known.text) text = "EUNKNOWN";
    strcpy(known.text, text);
    return known;
}

#endif
