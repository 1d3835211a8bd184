/* How a function that waits is stood before: outside of callbacks it is the real one's at once, and in one it is timed (waits.c). */
#ifndef WAITS_H
#define WAITS_H

#define CALLER __builtin_return_address(0)

#define WAITS_AS(SAID, ANSWER, NAME, PARAMETERS, WORDS)                                \
    REAL(NAME)                                                                         \
    ANSWER NAME PARAMETERS {                                                           \
        struct wait wait;                                                              \
        if (__builtin_expect(!in_callback, 1) || !begin_wait(&wait, SAID, CALLER)) return CALL(NAME) WORDS; \
        ANSWER got = CALL(NAME) WORDS;                                                 \
        end_wait(&wait, SAID, CALLER);                                                 \
        return got;                                                                    \
    }

#define WAITS(ANSWER, NAME, PARAMETERS, WORDS) WAITS_AS(#NAME, ANSWER, NAME, PARAMETERS, WORDS)

#define WAITS_IN_VAIN(NAME, PARAMETERS, WORDS)                                         \
    REAL(NAME)                                                                         \
    void NAME PARAMETERS {                                                             \
        struct wait wait;                                                              \
        bool waits = in_callback && begin_wait(&wait, #NAME, CALLER);                  \
        CALL(NAME) WORDS;                                                              \
        if (waits) end_wait(&wait, #NAME, CALLER);                                     \
    }

#endif
