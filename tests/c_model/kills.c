/* SIGKILL between a wait and the restart: a supervisor kills a process at its time limit, and each of the tracer's
 * calls may then find the stop gone (ESRCH). */
#define _GNU_SOURCE
#include "check_model.h"
#include <signal.h>
#include <sys/ptrace.h>
#include <sys/syscall.h>
#include <sys/user.h>
#include <sys/wait.h>
#include <unistd.h>

/* What the tracer takes ESRCH for. */
enum { A_BUG, A_DEATH_TO_COME };

/* How the supervisor kills. */
enum { BY_KILL, BY_TGKILL, BY_NUMBER, BY_PTRACE };

struct supervised {
    int takes_esrch_for;
    int kills;
};

/* Answers 0, or the errno of a call that failed. */
static int trace(int takes_esrch_for)
{
    struct user_regs_struct regs;
    int status, pid;
    while ((pid = waitpid(-1, &status, __WALL)) > 0) {
        if (!WIFSTOPPED(status))
            continue;
        if (ptrace(PTRACE_GETREGS, pid, 0, &regs) != 0 || ptrace(PTRACE_SYSCALL, pid, 0, 0) != 0) {
            if (errno != ESRCH || takes_esrch_for == A_BUG)
                return errno;
        }
    }
    return errno == ECHILD ? 0 : errno;
}

static void tracer(void *supervised)
{
    PUKZARN_CHECK(trace(((struct supervised *)supervised)->takes_esrch_for) == 0);
}

static void supervisor(void *supervised)
{
    int how = ((struct supervised *)supervised)->kills, answer = 0;
    if (how == BY_KILL)
        answer = kill(100, SIGKILL);
    else if (how == BY_TGKILL) {
        CHECK_ERRNO(tgkill(0, 100, SIGKILL), EINVAL);
        CHECK_ERRNO(tgkill(100, 0, SIGKILL), EINVAL);
        answer = tgkill(100, 100, SIGKILL);
    } else if (how == BY_NUMBER)
        answer = (int)syscall(SYS_tkill, 100, SIGKILL);
    else
        answer = (int)ptrace(PTRACE_KILL, 100, 0, 0);
    PUKZARN_CHECK(answer == 0 || errno == ESRCH);
}

static void test(pukzarn_sim *sim, void *supervised)
{
    pukzarn_sim_kills(sim);
    pukzarn_sim_case(sim, ONE_PROCESS);
    pukzarn_sim_tracer(sim, "tracer", tracer, supervised);
    pukzarn_sim_tracer(sim, "supervisor", supervisor, supervised);
    PUKZARN_CHECK(pukzarn_sim_run(sim) == 0);
    PUKZARN_CHECK(pukzarn_sim_phase(sim, 100) == PUKZARN_REAPED);
}

int main(void)
{
    for (int how = BY_KILL; how <= BY_PTRACE; how++) {
        struct supervised found = {A_BUG, how}, mended = {A_DEATH_TO_COME, how};
        CHECK(pukzarn_model("esrch_is_a_bug", test, &found), 1);
        CHECK(has_printed("takes_esrch_for) == 0"), 1);
        CHECK(pukzarn_model("esrch_is_a_death", test, &mended), 0);
        CHECK(has_printed("all interleavings"), 1);
    }
    return checked("kills");
}
