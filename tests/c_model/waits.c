/* Each form of waiting: what it answers, the status or the information that it writes, and each errno. */
#define _GNU_SOURCE
#include "check_model.h"
#include <limits.h>
#include <signal.h>
#include <sys/ptrace.h>
#include <sys/syscall.h>
#include <sys/wait.h>
#include <unistd.h>

static void go_on(void)
{
    CHECK(ptrace(PTRACE_SYSCALL, 100, 0, 0), 0);
}

/* What waitid writes: 0 where there is nothing yet. */
static void check_info(const siginfo_t *info, int signal, int code, int pid, int status)
{
    CHECK(info->si_signo, signal);
    CHECK(info->si_errno, 0);
    CHECK(info->si_code, code);
    CHECK(info->si_pid, pid);
    CHECK(info->si_status, status);
}

static void looks_and_waits(void)
{
    siginfo_t info;
    int status = 0;
    for (int i = 0; i < 2; i++) { /* a look leaves the stop */
        memset(&info, 0xab, sizeof info);
        CHECK(waitid(P_PID, 100, &info, WEXITED | WSTOPPED | WNOWAIT | __WALL), 0);
        check_info(&info, SIGCHLD, CLD_TRAPPED, 100, SIGTRAP | PTRACE_EVENT_STOP << 8);
    }
    CHECK(wait(&status), 100);
    CHECK(status, STATUS_START);
    memset(&info, 0xab, sizeof info);
    CHECK(waitid(P_ALL, 0, &info, WEXITED | WSTOPPED | WNOHANG), 0);
    check_info(&info, 0, 0, 0, 0);
    CHECK(waitpid(-1, &status, __WALL | WNOHANG), 0);
    CHECK(status, STATUS_START);
    go_on();
    CHECK(wait3(&status, WUNTRACED, NULL), 100);
    CHECK(status, STATUS_SYSCALL);
    go_on();
    CHECK(syscall(SYS_wait4, 100, &status, __WALL, NULL), 100);
    CHECK(status, STATUS_SYSCALL);
    go_on();
    CHECK(waitid(P_PGID, 77, &info, WSTOPPED), 0);
    check_info(&info, SIGCHLD, CLD_TRAPPED, 100, SIGTRAP | 0x80);
    go_on();
    CHECK(waitid(P_PID, 100, &info, WEXITED | WNOWAIT), 0);
    check_info(&info, SIGCHLD, CLD_EXITED, 100, 3);
    CHECK(waitpid(100, &status, 0), 100);
    CHECK(status, STATUS_EXITED_3);
}

static void refusals(void)
{
    siginfo_t info;
    int status = 7;
    memset(&info, 0xab, sizeof info);
    CHECK_ERRNO(waitpid(-1, &status, __WALL), ECHILD);
    CHECK_ERRNO(waitpid(999, &status, 0), ECHILD);
    CHECK_ERRNO(waitpid(-78, &status, WNOHANG), ECHILD);
    CHECK_ERRNO(wait(&status), ECHILD);
    CHECK_ERRNO(wait4(-77, &status, 0, NULL), ECHILD);
    CHECK_ERRNO(waitpid(-1, &status, 0x10), EINVAL);
    CHECK_ERRNO(waitpid(-1, &status, WNOWAIT), EINVAL);
    CHECK_ERRNO(waitpid(INT_MIN, &status, 0), ESRCH);
    CHECK_ERRNO(waitid(P_ALL, 0, &info, WEXITED), ECHILD);
    CHECK_ERRNO(waitid(P_ALL, 0, &info, WNOHANG), EINVAL);
    CHECK_ERRNO(waitid(P_PID, 0, &info, WEXITED), EINVAL);
    CHECK_ERRNO(waitid((idtype_t)9, 100, &info, WEXITED), EINVAL);
    CHECK(status, 7);
    CHECK(info.si_pid, (int)0xabababab);
}

static void trace(void *unused)
{
    (void)unused;
    looks_and_waits();
    refusals();
}

static void forms(pukzarn_sim *sim, void *unused)
{
    pukzarn_sim_case(sim, ONE_PROCESS);
    pukzarn_sim_tracer(sim, "main", trace, unused);
    CHECK(pukzarn_sim_run(sim), 0);
    CHECK(pukzarn_sim_phase(sim, 100), PUKZARN_REAPED);
    CHECK(pukzarn_sim_phase(sim, 101), PUKZARN_ABSENT);
}

/* Deaths by a signal: reported with the signal, in each form. */
static void trace_the_killed(void *unused)
{
    siginfo_t info;
    int status;
    (void)unused;
    CHECK(waitpid(100, &status, 0), 100);
    CHECK(ptrace(PTRACE_CONT, 100, 0, 0), 0);
    CHECK(waitpid(100, &status, 0), 100);
    CHECK(status, STATUS_SIGTERM);
    CHECK(ptrace(PTRACE_CONT, 100, 0, SIGTERM), 0);
    CHECK(waitid(P_ALL, 0, &info, WEXITED | WNOWAIT), 0);
    check_info(&info, SIGCHLD, CLD_KILLED, 100, SIGTERM);
    CHECK(waitpid(-1, &status, 0), 100);
    CHECK(WIFSIGNALED(status) && WTERMSIG(status) == SIGTERM, 1);
}

static void killed(pukzarn_sim *sim, void *unused)
{
    pukzarn_sim_case(sim, "tracee 100 100 100 0\nsignal 15 deadly\nexit 3\nend\n");
    pukzarn_sim_tracer(sim, "main", trace_the_killed, unused);
    CHECK(pukzarn_sim_run(sim), 0);
}

/* A poll that finds nothing is no end; nor is a wait that was interrupted. */
struct loop {
    int options;
    int ends_at_0;     /* takes WNOHANG's 0 for the end */
    int ends_at_eintr; /* takes EINTR for the end */
};

static void run_loop(void *arg)
{
    const struct loop *loop = arg;
    for (;;) {
        int pid = waitpid(-1, NULL, __WALL | loop->options);
        if (pid == 0 && !loop->ends_at_0)
            continue;
        if (pid == -1 && errno == EINTR && !loop->ends_at_eintr)
            continue;
        if (pid <= 0)
            return;
        ptrace(PTRACE_CONT, pid, 0, 0);
    }
}

static void test_loop(pukzarn_sim *sim, void *loop)
{
    pukzarn_sim_case(sim, TWO_PROCESSES);
    pukzarn_sim_eintrs(sim, ((struct loop *)loop)->options == 0);
    pukzarn_sim_tracer(sim, "main", run_loop, loop);
    PUKZARN_CHECK(pukzarn_sim_run(sim) == 0);
}

static void loops(void)
{
    struct loop polls = {WNOHANG, 0, 0}, ends_at_0 = {WNOHANG, 1, 0};
    struct loop blocks = {0, 0, 0}, ends_at_eintr = {0, 0, 1};
    CHECK(pukzarn_model("polls", test_loop, &polls), 0);
    CHECK(has_printed("all interleavings"), 1);
    CHECK(pukzarn_model("ends_at_0", test_loop, &ends_at_0), 1);
    CHECK(has_printed("pukzarn_sim_run(sim) == 0"), 1);
    CHECK(pukzarn_model("blocks", test_loop, &blocks), 0);
    CHECK(has_printed("all interleavings"), 1);
    CHECK(pukzarn_model("ends_at_eintr", test_loop, &ends_at_eintr), 1);
}

int main(void)
{
    CHECK(pukzarn_model("forms", forms, NULL), 0);
    CHECK(pukzarn_model("killed", killed, NULL), 0);
    loops();
    return checked("waits");
}
