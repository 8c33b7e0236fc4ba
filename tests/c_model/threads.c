/* Threads that a tracer starts, and `pukzarn_forget` at the head of a loop. */
#define _GNU_SOURCE
#include "check_model.h"
#include <sched.h>
#include <signal.h>
#include <sys/ptrace.h>
#include <sys/wait.h>
#include <time.h>
#include <unistd.h>

/* Traces until no tracee is left. */
static void trace(void *forgets)
{
    int status, pid;
    for (;;) {
        if (*(int *)forgets)
            pukzarn_forget("", 0);
        pid = waitpid(-1, &status, __WALL);
        if (pid < 0)
            return;
        if (WIFSTOPPED(status))
            PUKZARN_CHECK(ptrace(PTRACE_CONT, pid, 0, 0) == 0);
    }
}

static void starts_workers(void *forgets)
{
    int workers[2];
    for (int i = 0; i < 2; i++)
        workers[i] = pukzarn_thread_start(trace, forgets);
    for (int i = 0; i < 2; i++)
        pukzarn_thread_join(workers[i]);
    PUKZARN_CHECK(waitpid(-1, NULL, __WALL) == -1 && errno == ECHILD);
}

static void workers(pukzarn_sim *sim, void *forgets)
{
    pukzarn_sim_case(sim, "tracee 100 100 77 0\nexit 3\nend\ntracee 101 101 77 0\nexit 0\nend\n");
    pukzarn_sim_tracer(sim, "main", starts_workers, forgets);
    PUKZARN_CHECK(pukzarn_sim_run(sim) == 0);
}

/* The bytes that are not forgotten count: in which order two stops were answered. */
static int order[2];

static void forgets_all_but_the_order(void *unused)
{
    (void)unused;
    for (int i = 0; i < 2; i++)
        order[i] = waitpid(-1, NULL, __WALL);
    pukzarn_forget(order, sizeof order);
    for (int pid = 100; pid <= 101; pid++)
        PUKZARN_CHECK(ptrace(PTRACE_CONT, pid, 0, 0) == 0);
    while (waitpid(-1, NULL, __WALL) > 0)
        ;
    PUKZARN_CHECK(order[0] == 100 && order[1] == 101);
}

static void ordered(pukzarn_sim *sim, void *unused)
{
    pukzarn_sim_case(sim, "tracee 100 100 77 0\nexit 3\nend\ntracee 101 101 77 0\nexit 0\nend\n");
    pukzarn_sim_tracer(sim, "main", forgets_all_but_the_order, unused);
    pukzarn_sim_run(sim);
}

/* Two reapers of one zombie: each looks at the death, and expects to reap it. */
static void reap(void *mended)
{
    siginfo_t info;
    int status;
    if (waitid(P_PID, 100, &info, WEXITED | WNOWAIT) != 0)
        return;
    if (info.si_code == CLD_TRAPPED) {
        if (waitpid(100, &status, __WALL) == 100 && WIFSTOPPED(status))
            ptrace(PTRACE_CONT, 100, 0, 0);
        reap(mended);
        return;
    }
    PUKZARN_CHECK(waitpid(100, &status, __WALL) == 100 || (mended != NULL && errno == ECHILD));
}

static void reapers(pukzarn_sim *sim, void *mended)
{
    pukzarn_sim_case(sim, "tracee 100 100 77 0\nexit 3\nend\n");
    pukzarn_sim_tracer(sim, "a", reap, mended);
    pukzarn_sim_tracer(sim, "b", reap, mended);
    PUKZARN_CHECK(pukzarn_sim_run(sim) == 0);
}

/* A thread that polls what another one sets: no time passes while it sleeps, and the other one goes first. */
static volatile int is_traced;

static void traces_and_says_so(void *unused)
{
    int forgets = 0;
    (void)unused;
    trace(&forgets);
    is_traced = 1;
}

static void polls(void *sleeps)
{
    const struct timespec hour = {3600, 0};
    while (!is_traced) {
        switch (*(int *)sleeps) {
        case 0:
            PUKZARN_CHECK(sleep(3600) == 0);
            break;
        case 1:
            PUKZARN_CHECK(usleep(999999) == 0);
            break;
        case 2:
            PUKZARN_CHECK(nanosleep(&hour, NULL) == 0);
            break;
        case 3:
            PUKZARN_CHECK(clock_nanosleep(CLOCK_MONOTONIC, 0, &hour, NULL) == 0);
            break;
        default:
            PUKZARN_CHECK(sched_yield() == 0);
        }
    }
}

static void polled(pukzarn_sim *sim, void *sleeps)
{
    is_traced = 0;
    pukzarn_sim_case(sim, "tracee 100 100 77 0\nexit 3\nend\n");
    pukzarn_sim_tracer(sim, "polls", polls, sleeps);
    pukzarn_sim_tracer(sim, "traces", traces_and_says_so, NULL);
    PUKZARN_CHECK(pukzarn_sim_run(sim) == 0);
}

static void joins_twice(void *forgets)
{
    int worker = pukzarn_thread_start(trace, forgets);
    pukzarn_thread_join(worker);
    pukzarn_thread_join(worker);
}

static void joined_twice(pukzarn_sim *sim, void *forgets)
{
    pukzarn_sim_tracer(sim, "main", joins_twice, forgets);
    pukzarn_sim_run(sim);
}

static void starts_itself(pukzarn_sim *sim, void *forgets)
{
    (void)sim;
    pukzarn_thread_start(trace, forgets);
}

int main(void)
{
    int forgets = 0;
    for (int sleeps = 0; sleeps < 5; sleeps++) {
        CHECK(pukzarn_model("polled", polled, &sleeps), 0);
        CHECK(has_printed("all interleavings"), 1);
    }
    CHECK(pukzarn_model("joined_twice", joined_twice, &forgets), 1);
    CHECK(has_printed("pukzarn_thread_join of 0, which was joined"), 1);
    CHECK(pukzarn_model("starts_itself", starts_itself, &forgets), 1);
    CHECK(has_printed("pukzarn_thread_start is called by a thread that is in no simulation"), 1);
    CHECK(pukzarn_model("workers", workers, &forgets), 0);
    forgets = 1;
    CHECK(pukzarn_model("workers_forget", workers, &forgets), 0);
    CHECK(has_printed("as far as `pukzarn_forget` holds"), 1);
    CHECK(pukzarn_model("ordered", ordered, NULL), 1);
    CHECK(has_printed("order[0] == 100 && order[1] == 101"), 1);
    CHECK(pukzarn_model("reapers", reapers, NULL), 1);
    CHECK(pukzarn_model("reapers_mended", reapers, "mended"), 0);
    CHECK(has_printed("all interleavings"), 1);
    return checked("threads");
}
