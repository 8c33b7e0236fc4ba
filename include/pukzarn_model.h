/* pukzarn_model.h: a tracer's own code in C, unchanged, under every interleaving of its calls.
 *
 * No real process is traced. A test adds tracees, and the threads of the tracer; a model runs it again and again, once
 * for each order in which their calls can be made, and prints the first order that fails, with the line that runs it
 * again. docs/C_MODEL.md has a small test, and how it is linked.
 *
 * CALLS
 *     In a thread that pukzarn_sim_tracer or pukzarn_thread_start has started, these calls are answered by the
 *     simulation, with the numbers of their manual pages: waitpid, wait, wait3, wait4, waitid, ptrace, kill and tgkill,
 *     also by syscall(2). In any other thread of the program they are the real ones. What they are asked and the
 *     simulation has not (another request, another signal, an attach ..) fails the schedule with that reason, and so do
 *     pthread_create, fork, process_vm_readv and process_vm_writev. In sleep, usleep, nanosleep, clock_nanosleep and
 *     sched_yield no time passes: other threads may go first.
 *
 * FAILING
 *     A schedule fails by pukzarn_fail, PUKZARN_CHECK and assert, by exit and abort, by a call that is not simulated,
 *     where threads wait for ever, and where it takes 10,000 steps. What else ends the program ends the search.
 *
 * ENDINGS
 *     A thread of a schedule that fails, or that need not be run to its end, is ended within its call, by unwinding its
 *     stack. So code may not count on a call to return: what it has opened, allocated or locked is then lost. Whatever
 *     a test uses, static variables too, it sets at its beginning.
 */
#ifndef PUKZARN_MODEL_H
#define PUKZARN_MODEL_H

#include "pukzarn.h"

#ifdef __cplusplus
extern "C" {
#endif

/* ---- Models ---- */

/* A simulation: what one run of a test adds to it. */
typedef struct pukzarn_sim pukzarn_sim;

/* A test. It is run once for each schedule, adds tracees and threads, and calls pukzarn_sim_run. */
typedef void pukzarn_test(pukzarn_sim *sim, void *arg);

/* Runs a test under every interleaving of its calls, and prints on standard error how far it came, or the first
 * schedule that fails, in the words of `tracer explore`. The name, of letters, digits and underscores, is that of the
 * test in the printed line: each model of a program has one of its own. Answers 0; or 1 where a schedule fails. It is
 * not called within a test.
 *
 * In the environment PUKZARN_SCHEDULE has one schedule that is run in place of all, and whose steps are printed also
 * where it passes; PUKZARN_SCHEDULES has how many are run at most, and PUKZARN_DEVIATIONS the most deviations. */
int pukzarn_model(const char *name, pukzarn_test *test, void *arg);

/* How far a model is to come. */
enum {
    PUKZARN_AS_BOUNDED = 0, /* the bounds may end it before all interleavings are run */
    PUKZARN_ALL = 1         /* it fails where they do */
};

/* What the threads of a test share. */
enum {
    PUKZARN_SHARE_MEMORY = 0, /* memory of any kind */
    PUKZARN_SHARE_NOTHING = 1 /* nothing: a bug in what they do share may be missed, and fewer schedules are run */
};

/* Threads that wait for ever. */
enum {
    PUKZARN_DEADLOCK_FAILS = 0,
    PUKZARN_DEADLOCK_ENDS = 1 /* it ends the run, as where a tracer is to wait for what never comes */
};

/* How a model is searched. Begin with PUKZARN_BOUNDS, which pukzarn_model takes, and set what is to differ. */
struct pukzarn_bounds {
    uint64_t schedules;  /* how many are run at most; 0: what PUKZARN_SCHEDULES says, or else 20,000 */
    uint32_t deviations; /* the most decisions of a schedule that are not the first one: tracees first, then threads,
                            and a wait is answered the first tracee; each stays preferred; or PUKZARN_WIDENING */
    uint32_t reach;      /* PUKZARN_AS_BOUNDED, PUKZARN_ALL */
    uint32_t shares;     /* PUKZARN_SHARE_MEMORY, PUKZARN_SHARE_NOTHING */
    uint32_t deadlocks;  /* PUKZARN_DEADLOCK_FAILS, PUKZARN_DEADLOCK_ENDS */
};

/* Schedules without deviations first, then those with at most one, two, three, and then all. */
#define PUKZARN_WIDENING UINT32_MAX
#define PUKZARN_BOUNDS { 0, PUKZARN_WIDENING, PUKZARN_AS_BOUNDED, PUKZARN_SHARE_MEMORY, PUKZARN_DEADLOCK_FAILS }

/* pukzarn_model within bounds. */
int pukzarn_model_within(const struct pukzarn_bounds *bounds, const char *name, pukzarn_test *test, void *arg);

/* Writes what the last model of this thread printed, without the steps of a schedule that passes, cut to the room and
 * ended by a zero byte; with room 0 nothing is written. Answers the length of the whole text, without the zero byte. */
long pukzarn_model_printed(char *to, size_t room);

/* ---- What a test adds, before it runs ---- */

/* Adds the tracees of a case file (docs/formats/case-files.md). A faulty one fails the schedule by its line. */
void pukzarn_sim_case(pukzarn_sim *sim, const char *text);

/* Adds a thread of the tracer, with a name for the printed schedules. */
void pukzarn_sim_tracer(pukzarn_sim *sim, const char *name, void (*body)(void *), void *arg);

/* The options (PTRACE_O_*) that every tracee has from its first stop on, until a tracer sets others. Without this they
 * are PTRACE_O_TRACESYSGOOD, PTRACE_O_TRACEFORK, PTRACE_O_TRACECLONE and PTRACE_O_TRACEEXEC. Options of either kind
 * need TRACESYSGOOD, and TRACEFORK and TRACECLONE together, from before the first child on. */
void pukzarn_sim_options(pukzarn_sim *sim, unsigned options);

/* The first stop of each tracee. */
enum {
    PUKZARN_FIRST_EVENT = 0,  /* PTRACE_EVENT_STOP, as after PTRACE_SEIZE */
    PUKZARN_FIRST_SIGSTOP = 1 /* the signal-delivery-stop of SIGSTOP, as after PTRACE_TRACEME or PTRACE_ATTACH */
};

/* What the first stop of each tracee is, also of those that others create; without this, PUKZARN_FIRST_EVENT. After
 * PUKZARN_FIRST_SIGSTOP a restart that hands this SIGSTOP on fails the schedule, since there is no group-stop, and
 * PTRACE_INTERRUPT is EIO. */
void pukzarn_sim_first_stops(pukzarn_sim *sim, unsigned first_stop);

/* A tracer may kill tracees by SIGKILL, so that a stop may be gone at each ptrace call (ESRCH). It kills nobody by
 * itself: a thread of the tracer calls kill(2). */
void pukzarn_sim_kills(pukzarn_sim *sim);

/* So many waits that would block may be answered EINTR in place of blocking, as by a signal that the tracer handles. */
void pukzarn_sim_eintrs(pukzarn_sim *sim, unsigned most);

/* As on Linux, the thread of this name traces all tracees: the waits of each thread may be answered a stop, but only
 * this one restarts a tracee or sees its registers; all others are answered ESRCH. Without this, the thread that was
 * answered a stop does, and no other. */
void pukzarn_sim_only_tracer(pukzarn_sim *sim, const char *name);

/* Runs all of it to its end. Answers how many tracees are left that were created and have not been reaped. */
int pukzarn_sim_run(pukzarn_sim *sim);

/* ---- After the run ---- */

/* What a tracee was doing at the end: PUKZARN_UNBORN to PUKZARN_REAPED, PUKZARN_ABSENT for one that is not there. */
uint32_t pukzarn_sim_phase(pukzarn_sim *sim, int32_t tid);

/* ---- In a test, and in the threads of a simulation ---- */

#ifdef __GNUC__
#define PUKZARN_NORETURN __attribute__((__noreturn__))
#else
#define PUKZARN_NORETURN
#endif

/* Fails the schedule with a message. It does not return. */
PUKZARN_NORETURN void pukzarn_fail(const char *message);

/* Fails the schedule where a condition does not hold. */
#define PUKZARN_CHECK(condition) \
    ((condition) ? (void)0 : pukzarn_fail(__FILE__ ":" PUKZARN_TEXT(__LINE__) ": " #condition))
#define PUKZARN_TEXT(line) PUKZARN_TEXT_OF(line)
#define PUKZARN_TEXT_OF(line) #line

/* Starts a further thread of the tracer, in place of pthread_create, and answers its number; and waits for its end. A
 * thread is joined once, or never. */
int pukzarn_thread_start(void (*body)(void *), void *arg);
void pukzarn_thread_join(int thread);

/* Called at the head of a loop: of all that has happened, only these bytes count for what this thread does from here
 * on. Where it has several such loops, the bytes also say which one it is. Then fewer schedules are run; the report says
 * "as far as `pukzarn_forget` holds". */
void pukzarn_forget(const void *all_that_counts, size_t len);

#ifdef __cplusplus
}
#endif

#endif
