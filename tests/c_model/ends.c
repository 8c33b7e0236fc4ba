/* How a run may end, how far a search comes, and what a test may set. */
#define _GNU_SOURCE
#include "check_model.h"
#include <err.h>
#include <signal.h>
#include <sys/ptrace.h>
#include <sys/wait.h>
#include <unistd.h>

static void trace(void *unused)
{
    int pid, status;
    (void)unused;
    while ((pid = waitpid(-1, &status, __WALL)) > 0)
        if (WIFSTOPPED(status))
            PUKZARN_CHECK(ptrace(PTRACE_SYSCALL, pid, 0, 0) == 0);
}

/* Forgets to restart what it was answered. */
static void forget_to_restart(void *unused)
{
    (void)unused;
    while (waitpid(-1, NULL, __WALL) > 0)
        ;
}

static void never_ends(pukzarn_sim *sim, void *unused)
{
    pukzarn_sim_case(sim, TWO_PROCESSES);
    pukzarn_sim_tracer(sim, "main", forget_to_restart, unused);
    CHECK(pukzarn_sim_run(sim), 1);
    CHECK(pukzarn_sim_phase(sim, 100), PUKZARN_CLAIMED);
    CHECK(pukzarn_sim_phase(sim, 101), PUKZARN_UNBORN);
}

static void deadlocks(void)
{
    struct pukzarn_bounds bounds = PUKZARN_BOUNDS;
    CHECK(pukzarn_model("deadlock", never_ends, NULL), 1);
    CHECK(has_printed("main"), 1);
    CHECK(has_printed("wait any"), 1);
    bounds.deadlocks = PUKZARN_DEADLOCK_ENDS;
    CHECK(pukzarn_model_within(&bounds, "deadlock", never_ends, NULL), 0);
}

static void wait_once(void *unused)
{
    (void)unused;
    CHECK(waitpid(-1, NULL, __WALL), 100);
}

static void phases(pukzarn_sim *sim, void *unused)
{
    pukzarn_sim_case(sim, TWO_PROCESSES);
    CHECK(pukzarn_sim_run(sim), 1);
    CHECK(pukzarn_sim_phase(sim, 100), PUKZARN_STOPPED);
    CHECK(pukzarn_sim_phase(sim, 101), PUKZARN_UNBORN);
    CHECK(pukzarn_sim_phase(sim, -1), PUKZARN_ABSENT);
    (void)unused;
}

static void claimed(pukzarn_sim *sim, void *unused)
{
    pukzarn_sim_case(sim, TWO_PROCESSES);
    pukzarn_sim_tracer(sim, "main", wait_once, unused);
    CHECK(pukzarn_sim_run(sim), 1);
    CHECK(pukzarn_sim_phase(sim, 100), PUKZARN_CLAIMED);
}

/* Restarts a process that creates a thread and exits: it cannot end before the thread, which nobody restarts. */
static void restart_the_leader(void *unused)
{
    (void)unused;
    for (int i = 0; i < 2; i++) {
        CHECK(waitpid(100, NULL, 0), 100);
        CHECK(ptrace(PTRACE_CONT, 100, 0, 0), 0);
    }
}

static void running(pukzarn_sim *sim, void *unused)
{
    pukzarn_sim_case(sim, "tracee 100 100 77 0\nthread 101\nexit 3\nend\ntracee 101 100 77 100\nexit 0\nend\n");
    pukzarn_sim_tracer(sim, "main", restart_the_leader, unused);
    CHECK(pukzarn_sim_run(sim), 2);
    CHECK(pukzarn_sim_phase(sim, 100), PUKZARN_RUNNING);
    CHECK(pukzarn_sim_phase(sim, 101), PUKZARN_STOPPED);
}

static void restart_once(void *unused)
{
    wait_once(unused);
    CHECK(ptrace(PTRACE_CONT, 100, 0, 0), 0);
}

static void dead(pukzarn_sim *sim, void *unused)
{
    pukzarn_sim_case(sim, ONE_PROCESS);
    pukzarn_sim_tracer(sim, "main", restart_once, unused);
    CHECK(pukzarn_sim_run(sim), 1);
    CHECK(pukzarn_sim_phase(sim, 100), PUKZARN_DEAD);
}

static void two_tracers(pukzarn_sim *sim, void *unused)
{
    pukzarn_sim_case(sim, ONE_PROCESS);
    pukzarn_sim_tracer(sim, "a", trace, unused);
    pukzarn_sim_tracer(sim, "b", trace, unused);
    CHECK(pukzarn_sim_run(sim), 0);
}

static void bounds_end_a_search(void)
{
    struct pukzarn_bounds bounds = PUKZARN_BOUNDS;
    bounds.schedules = 3;
    CHECK(pukzarn_model_within(&bounds, "few", two_tracers, NULL), 0);
    CHECK(has_printed("3 schedules"), 1);
    CHECK(has_printed("or raise the number of schedules (PUKZARN_SCHEDULES)"), 1);
    CHECK(strstr(printed(), "all interleavings") == NULL, 1);
    bounds.reach = PUKZARN_ALL;
    CHECK(pukzarn_model_within(&bounds, "few", two_tracers, NULL), 1);
    CHECK(has_printed("which PUKZARN_ALL asks for"), 1);
    bounds.schedules = 0;
    bounds.reach = PUKZARN_AS_BOUNDED;
    bounds.deviations = 1;
    CHECK(pukzarn_model_within(&bounds, "one_deviation", two_tracers, NULL), 0);
    CHECK(has_printed("all with at most 1 deviation"), 1);
    CHECK(has_printed("PUKZARN_DEVIATIONS"), 1);
    bounds.deviations = PUKZARN_WIDENING;
    bounds.shares = PUKZARN_SHARE_NOTHING;
    bounds.schedules = 1000000;
    bounds.reach = PUKZARN_ALL;
    CHECK(pukzarn_model_within(&bounds, "all", two_tracers, NULL), 0);
    CHECK(has_printed("all interleavings, if threads share nothing"), 1);
    bounds.shares = 9;
    CHECK(pukzarn_model_within(&bounds, "unknown", two_tracers, NULL), 1);
    CHECK(has_printed("9 is no shares of struct pukzarn_bounds"), 1);
}

/* A thread that does not trace is answered a stop, and restarts it: as on Linux that is ESRCH. */
static void restarts_what_another_traces(void *unused)
{
    int status, pid = waitpid(-1, &status, __WALL);
    (void)unused;
    PUKZARN_CHECK(pid <= 0 || !WIFSTOPPED(status) || ptrace(PTRACE_CONT, pid, 0, 0) == 0);
}

static void one_traces(pukzarn_sim *sim, void *unused)
{
    pukzarn_sim_only_tracer(sim, "main");
    pukzarn_sim_case(sim, ONE_PROCESS);
    pukzarn_sim_tracer(sim, "main", trace, unused);
    pukzarn_sim_tracer(sim, "other", restarts_what_another_traces, unused);
    pukzarn_sim_run(sim);
}

/* The options that tracees have at first. */
static void sees_the_exit(void *unused)
{
    int status;
    (void)unused;
    CHECK(waitpid(100, &status, 0), 100);
    CHECK(ptrace(PTRACE_CONT, 100, 0, 0), 0);
    CHECK(waitpid(100, &status, 0), 100);
    CHECK(status, STATUS_ENDING);
    CHECK(ptrace(PTRACE_CONT, 100, 0, 0), 0);
    CHECK(waitpid(100, &status, 0), 100);
    CHECK(status, STATUS_EXITED_3);
}

static void with_options(pukzarn_sim *sim, void *unused)
{
    pukzarn_sim_options(sim, PTRACE_O_TRACESYSGOOD | PTRACE_O_TRACEEXIT);
    pukzarn_sim_case(sim, ONE_PROCESS);
    pukzarn_sim_tracer(sim, "main", sees_the_exit, unused);
    CHECK(pukzarn_sim_run(sim), 0);
}

/* The first stop of a tracee that was not seized. */
static void sees_sigstop(void *signal)
{
    int status;
    CHECK(waitpid(100, &status, 0), 100);
    CHECK(status, SIGSTOP << 8 | 0x7f);
    CHECK_ERRNO(ptrace(PTRACE_INTERRUPT, 100, 0, 0), EIO);
    CHECK(ptrace(PTRACE_CONT, 100, 0, signal), 0);
    CHECK(waitpid(100, &status, 0), 100);
    CHECK(status, STATUS_EXITED_3);
}

static void with_sigstop(pukzarn_sim *sim, void *signal)
{
    pukzarn_sim_first_stops(sim, PUKZARN_FIRST_SIGSTOP);
    pukzarn_sim_case(sim, ONE_PROCESS);
    pukzarn_sim_tracer(sim, "main", sees_sigstop, signal);
    CHECK(pukzarn_sim_run(sim), 0);
}

static void with_other_first_stop(pukzarn_sim *sim, void *unused)
{
    (void)unused;
    pukzarn_sim_first_stops(sim, 2);
}

static void with_other_bits(pukzarn_sim *sim, void *unused)
{
    (void)unused;
    pukzarn_sim_options(sim, 0x40000000);
}

/* A test that does not run what it adds. */
static void runs_nothing(pukzarn_sim *sim, void *unused)
{
    pukzarn_sim_case(sim, ONE_PROCESS);
    pukzarn_sim_tracer(sim, "main", trace, unused);
}

/* A text of many steps ends with its cause once more. */
static void trace_and_fail(void *unused)
{
    trace(unused);
    pukzarn_fail("all was traced");
}

static void many_steps(pukzarn_sim *sim, void *unused)
{
    pukzarn_sim_case(sim, TWO_PROCESSES);
    pukzarn_sim_tracer(sim, "main", trace_and_fail, unused);
    pukzarn_sim_run(sim);
}

/* An exit within the C library ends the program, but is no success. */
static void gives_up(void *unused)
{
    (void)unused;
    CHECK(waitpid(-1, NULL, __WALL), 100);
    errx(0, "this tracer gives up, and takes that for a success");
}

static void exits(pukzarn_sim *sim, void *unused)
{
    pukzarn_sim_case(sim, ONE_PROCESS);
    pukzarn_sim_tracer(sim, "main", gives_up, unused);
    pukzarn_sim_run(sim);
}

static void an_exit_is_no_success(void)
{
    int status, pid = fork();
    if (pid == 0)
        _exit(pukzarn_model("exits", exits, NULL) == 0 ? 7 : 8);
    CHECK(waitpid(pid, &status, 0), pid);
    CHECK(WIFEXITED(status), 1);
    CHECK(WEXITSTATUS(status), 1);
}

int main(void)
{
    char cut[8] = "zzzzzzz";
    an_exit_is_no_success();
    deadlocks();
    CHECK(pukzarn_model("phases", phases, NULL), 0);
    CHECK(pukzarn_model("claimed", claimed, NULL), 0);
    CHECK(pukzarn_model("running", running, NULL), 0);
    CHECK(pukzarn_model("dead", dead, NULL), 0);
    bounds_end_a_search();
    CHECK(pukzarn_model("one_traces", one_traces, NULL), 1);
    CHECK(has_printed("ptrace(PTRACE_CONT, pid, 0, 0) == 0"), 1);
    CHECK(pukzarn_model("with_options", with_options, NULL), 0);
    CHECK(pukzarn_model("with_other_bits", with_other_bits, NULL), 1);
    CHECK(has_printed("0x40000000 has bits of no option"), 1);
    CHECK(pukzarn_model("with_sigstop", with_sigstop, NULL), 0);
    CHECK(pukzarn_model("hands_sigstop_on", with_sigstop, (void *)SIGSTOP), 1);
    CHECK(has_printed("hands on the SIGSTOP of its first stop"), 1);
    CHECK(pukzarn_model("with_other_first_stop", with_other_first_stop, NULL), 1);
    CHECK(has_printed("2 is no first stop"), 1);
    CHECK(pukzarn_model("runs_nothing", runs_nothing, NULL), 1);
    CHECK(has_printed("that it does not run: `pukzarn_sim_run` has to come after them"), 1);
    CHECK(pukzarn_model("many_steps", many_steps, NULL), 1);
    CHECK(has_printed("\nthe cause, as above: thread `main` failed: all was traced\n"), 1);
    CHECK(pukzarn_model_printed(cut, 0), (long)strlen(printed()));
    CHECK(cut[0], 'z');
    CHECK(pukzarn_model_printed(cut, 4), (long)strlen(printed()));
    CHECK_TEXT(cut, "puk");
    return checked("ends");
}
