/* Outside of a simulation the calls are the real ones, before, beside and after a model. */
#define _GNU_SOURCE
#include "check_model.h"
#include <pthread.h>
#include <signal.h>
#include <sys/ptrace.h>
#include <sys/resource.h>
#include <sys/wait.h>
#include <unistd.h>

static int forked(int code)
{
    int pid = fork();
    if (pid == 0)
        _exit(code);
    return pid;
}

static void *answer(void *arg)
{
    return arg;
}

static void real_calls(void)
{
    siginfo_t info;
    struct rusage usage;
    pthread_t thread;
    void *result = NULL;
    int status = 0, pid = forked(7);
    CHECK(waitpid(pid, &status, 0), pid);
    CHECK(WEXITSTATUS(status), 7);
    pid = forked(8);
    CHECK(wait(&status), pid);
    CHECK(WEXITSTATUS(status), 8);
    pid = forked(9);
    CHECK(wait4(-1, &status, 0, &usage), pid);
    CHECK(WEXITSTATUS(status), 9);
    pid = forked(10);
    CHECK(waitid(P_PID, (id_t)pid, &info, WEXITED), 0);
    CHECK(info.si_pid, pid);
    CHECK(info.si_status, 10);
    CHECK_ERRNO(waitpid(-1, &status, 0), ECHILD);
    CHECK(kill(getpid(), 0), 0);
    CHECK(tgkill(getpid(), gettid(), 0), 0);
    CHECK_ERRNO(ptrace(PTRACE_CONT, getpid(), 0, 0), ESRCH);
    CHECK(pthread_create(&thread, NULL, answer, &status), 0);
    CHECK(pthread_join(thread, &result), 0);
    CHECK(result == &status, 1);
}

static volatile int modelled;

/* A thread of the program, beside a model that another thread runs. */
static void *beside(void *unused)
{
    while (!modelled)
        real_calls();
    return unused;
}

static void trace(void *unused)
{
    int pid;
    (void)unused;
    while ((pid = waitpid(-1, NULL, __WALL)) > 0)
        ptrace(PTRACE_CONT, pid, 0, 0);
}

static void test(pukzarn_sim *sim, void *unused)
{
    pukzarn_sim_case(sim, TWO_PROCESSES);
    pukzarn_sim_tracer(sim, "main", trace, unused);
    CHECK(pukzarn_sim_run(sim), 0);
}

int main(void)
{
    pthread_t thread;
    real_calls();
    CHECK(pthread_create(&thread, NULL, beside, NULL), 0);
    CHECK(pukzarn_model("beside", test, NULL), 0);
    modelled = 1;
    CHECK(pthread_join(thread, NULL), 0);
    real_calls();
    return checked("outside");
}
