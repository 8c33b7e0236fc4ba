/* What the programs of this folder share. Expected values are worked out by hand from ptrace(2), waitid(2), wait(2),
 * errno(3) and the formats of docs/formats, never copied from the library. They are C99, and C++17 too. */
#ifndef CHECK_H
#define CHECK_H

#include <errno.h>
#include <pukzarn.h>
#include <stdio.h>
#include <stdlib.h>
#include <string.h>

#define MOST_PRINTED 20

static int failed_checks;

/* Prints where an answer is another one than was wanted. Threads may call it. */
static inline void check(const char *file, int line, const char *what, long long got, long long wanted)
{
    if (got == wanted)
        return;
    fprintf(stderr, "%s:%d: %s: wanted %lld (0x%llx), got %lld (0x%llx)\n", file, line, what, wanted,
            (unsigned long long)wanted, got, (unsigned long long)got);
    if (__atomic_add_fetch(&failed_checks, 1, __ATOMIC_RELAXED) >= MOST_PRINTED)
        exit(1);
}

#define CHECK(got, wanted) check(__FILE__, __LINE__, #got, (long long)(got), (long long)(wanted))

/* Compares texts, and bytes. */
#define CHECK_TEXT(got, wanted) check(__FILE__, __LINE__, #got " is " wanted, strcmp((got), (wanted)) == 0, 1)
#define CHECK_BYTES(got, wanted, count) \
    check(__FILE__, __LINE__, #got " are " #wanted, memcmp((got), (wanted), (count)) == 0, 1)

/* What a program's main ends with. */
static inline int checked(const char *program)
{
    if (failed_checks == 0)
        printf("%s: passed\n", program);
    return failed_checks != 0;
}

static inline struct pukzarn_row row_of(uint32_t tid, uint32_t tgid, uint32_t pgid, uint32_t parent)
{
    struct pukzarn_row row;
    row.tid = tid;
    row.tgid = tgid;
    row.pgid = pgid;
    row.parent = parent;
    return row;
}

static inline struct pukzarn_stop stop_of(uint32_t kind, uint32_t value)
{
    struct pukzarn_stop stop;
    stop.kind = kind;
    stop.value = value;
    return stop;
}

static inline struct pukzarn_restart restart_of(uint32_t kind, uint32_t signal)
{
    struct pukzarn_restart restart;
    restart.kind = kind;
    restart.signal = signal;
    return restart;
}

/* Numbers that no call writes: what was not written still has them. */
#define UNTOUCHED 0xabababab

static inline struct pukzarn_stop no_stop(void)
{
    return stop_of(UNTOUCHED, UNTOUCHED);
}

static inline struct pukzarn_waited no_waited(void)
{
    struct pukzarn_waited waited;
    memset(&waited, 0xab, sizeof waited);
    return waited;
}

static inline struct pukzarn_state no_state(void)
{
    struct pukzarn_state state;
    memset(&state, 0xab, sizeof state);
    return state;
}

static inline struct pukzarn_got no_got(void)
{
    struct pukzarn_got got;
    memset(&got, 0xab, sizeof got);
    return got;
}

#define CHECK_STOP(stop, wanted_kind, wanted_value) \
    do { \
        CHECK((stop).kind, wanted_kind); \
        CHECK((stop).value, wanted_value); \
    } while (0)

#define CHECK_STATE(state, wanted_phase, wanted_number, wanted_tracer, wanted_status) \
    do { \
        CHECK((state).phase, wanted_phase); \
        CHECK((state).number, wanted_number); \
        CHECK((state).tracer, wanted_tracer); \
        CHECK((state).status, wanted_status); \
    } while (0)

#define CHECK_WAITED(waited, wanted_row, wanted_tid, wanted_number, wanted_status, wanted_death) \
    do { \
        CHECK((waited).row, wanted_row); \
        CHECK((waited).tid, wanted_tid); \
        CHECK((waited).number, wanted_number); \
        CHECK((waited).status, wanted_status); \
        CHECK((waited).death, wanted_death); \
    } while (0)

/* Raw wait statuses (wait(2), ptrace(2)): SIGTRAP is 5, a stop's low byte 0x7f, an event its number above that. */
enum {
    STATUS_START = 0x80057f,   /* PTRACE_EVENT_STOP is 128 */
    STATUS_SYSCALL = 0x857f,   /* SIGTRAP | 0x80, by PTRACE_O_TRACESYSGOOD */
    STATUS_FORK = 0x1057f,     /* PTRACE_EVENT_FORK is 1 */
    STATUS_CLONE = 0x3057f,    /* PTRACE_EVENT_CLONE is 3 */
    STATUS_EXEC = 0x4057f,     /* PTRACE_EVENT_EXEC is 4 */
    STATUS_ENDING = 0x6057f,   /* PTRACE_EVENT_EXIT is 6 */
    STATUS_SECCOMP = 0x7057f,  /* PTRACE_EVENT_SECCOMP is 7 */
    STATUS_SIGTERM = 0xf7f,    /* SIGTERM is 15 */
    STATUS_EXITED_3 = 0x300,   /* the code is the second byte */
    STATUS_KILLED_TERM = 0x0f, /* the signal is the low seven bits */
    STATUS_CORE_SEGV = 0x8b    /* SIGSEGV is 11, and 0x80 says that core was dumped */
};

#endif
