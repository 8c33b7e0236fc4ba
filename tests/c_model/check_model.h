/* What the programs of this folder share, beside ../c/check.h. */
#ifndef CHECK_MODEL_H
#define CHECK_MODEL_H

#include "../c/check.h"
#include <pukzarn_model.h>

/* One process, which writes and exits. */
#define ONE_PROCESS \
    "tracee 100 100 77 0\npage 0x10000\ndata 0x10000 68690a\nat 0x401000 0x7ffff000\n" \
    "call write 1 0x10000 3 = 3\nexit 3\nend\n"

/* A process that forks another, and both exit. */
#define TWO_PROCESSES "tracee 100 100 77 0\nfork 101\nexit 3\nend\ntracee 101 101 77 100\nexit 0\nend\n"

/* What the last model of this thread printed. */
static inline const char *printed(void)
{
    static char text[1 << 16];
    pukzarn_model_printed(text, sizeof text);
    return text;
}

/* Whether the last model of this thread printed these words. */
static inline int has_printed(const char *words)
{
    if (strstr(printed(), words) != NULL)
        return 1;
    fprintf(stderr, "\"%s\" was not printed, but:\n%s\n", words, printed());
    return 0;
}

/* A call answers -1, with this errno. */
#define CHECK_ERRNO(call, number) \
    do { \
        errno = 0; \
        CHECK(call, -1); \
        CHECK(errno, number); \
    } while (0)

#endif
