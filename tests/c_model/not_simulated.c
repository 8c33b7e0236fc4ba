/* What the simulation has not, and what would end the program, fails the schedule, with the reason: each call once. */
#define _GNU_SOURCE
#include "check_model.h"
#include <assert.h>
#include <elf.h>
#include <pthread.h>
#include <signal.h>
#include <stddef.h>
#include <sys/ptrace.h>
#include <sys/resource.h>
#include <sys/syscall.h>
#include <sys/uio.h>
#include <sys/user.h>
#include <sys/wait.h>
#include <unistd.h>

static int returned;

static void *start(void *arg)
{
    return arg;
}

static void creates_a_thread(void)
{
    pthread_t thread;
    pthread_create(&thread, NULL, start, NULL);
}

static void reads_floats(void)
{
    char floats[512];
    struct iovec set = {floats, sizeof floats};
    ptrace(PTRACE_GETREGSET, 100, NT_PRFPREG, &set);
}

static void waits_with_usage(void)
{
    struct rusage usage;
    int status;
    wait4(-1, &status, __WALL, &usage);
}

static void waits_for_its_own_group(void)
{
    waitpid(0, NULL, 0);
}

static void waits_for_clones(void)
{
    waitpid(-1, NULL, (int)__WCLONE);
}

static void waits_by_descriptor(void)
{
    siginfo_t info;
    waitid((idtype_t)3, 7, &info, WEXITED); /* P_PIDFD */
}

static void attaches(void)
{
    ptrace(PTRACE_ATTACH, 100, 0, 0);
}

static void detaches(void)
{
    ptrace(PTRACE_DETACH, 100, 0, 0);
}

static void is_traced(void)
{
    ptrace(PTRACE_TRACEME, 0, 0, 0);
}

static void steps(void)
{
    ptrace(PTRACE_SINGLESTEP, 100, 0, 0);
}

static void listens(void)
{
    ptrace(PTRACE_LISTEN, 100, 0, 0);
}

static void asks_for_what_is_unknown(void)
{
    ptrace((enum __ptrace_request)0x4fff, 100, 0, 0);
}

static void reads_debug_registers(void)
{
    ptrace(PTRACE_PEEKUSER, 100, (void *)offsetof(struct user, u_debugreg), 0);
}

static void terminates(void)
{
    kill(100, SIGTERM);
}

static void stops_a_thread(void)
{
    tgkill(100, 100, SIGSTOP);
}

static void forks(void)
{
    fork();
}

static void reads_memory(void)
{
    char byte;
    struct iovec to = {&byte, 1}, from = {(void *)0x10000, 1};
    process_vm_readv(100, &to, 1, &from, 1, 0);
}

static void writes_memory(void)
{
    char byte = 0;
    struct iovec from = {&byte, 1}, to = {(void *)0x10000, 1};
    process_vm_writev(100, &from, 1, &to, 1, 0);
}

static void traces_by_number(void)
{
    syscall(SYS_ptrace, PTRACE_CONT, 100, 0, 0);
}

static void kills_by_number(void)
{
    syscall(SYS_tgkill, 100, 100, SIGSTOP);
}

static void exits(void)
{
    exit(0);
}

static void exits_at_once(void)
{
    _exit(0);
}

static void aborts(void)
{
    abort();
}

static void asserts(void)
{
    assert(returned != 0);
}

static const struct {
    void (*call)(void);
    const char *printed;
} calls[] = {
    {creates_a_thread, "pthread_create is not simulated: the model starts the tracer's threads"},
    {reads_floats, "register set 0x2 is not simulated"},
    {waits_with_usage, "wait4 with a rusage is not simulated"},
    {waits_for_its_own_group, "waitpid of 0 is not simulated"},
    {waits_for_clones, "__WCLONE is not simulated"},
    {waits_by_descriptor, "waitid of P_PIDFD is not simulated"},
    {attaches, "PTRACE_ATTACH is not simulated"},
    {detaches, "PTRACE_DETACH is not simulated"},
    {is_traced, "PTRACE_TRACEME is not simulated"},
    {steps, "PTRACE_SINGLESTEP is not simulated: a restart is PTRACE_CONT or PTRACE_SYSCALL"},
    {listens, "PTRACE_LISTEN is not simulated"},
    {asks_for_what_is_unknown, "ptrace request 0x4fff is not simulated"},
    {reads_debug_registers, "offset 848 of struct user is not simulated"},
    {terminates, "kill with another signal than SIGKILL is not simulated"},
    {stops_a_thread, "with another signal than SIGKILL is not simulated"},
    {forks, "fork is not simulated"},
    {reads_memory, "process_vm_readv is not simulated"},
    {writes_memory, "process_vm_writev is not simulated"},
    {traces_by_number, "SYS_ptrace is not simulated"},
    {kills_by_number, "with another signal than SIGKILL is not simulated"},
    {exits, "exit(0) is called"},
    {exits_at_once, "_exit(0) is called"},
    {aborts, "abort is called"},
    {asserts, "assertion `returned != 0` failed"},
};

static void trace(void *at)
{
    calls[*(size_t *)at].call();
    returned++;
}

static void test(pukzarn_sim *sim, void *at)
{
    pukzarn_sim_case(sim, ONE_PROCESS);
    pukzarn_sim_tracer(sim, "main", trace, at);
    pukzarn_sim_run(sim);
    returned++;
}

/* A test that calls its tracer itself, and not in a thread of the simulation, would find no tracee. */
static void waits_itself(pukzarn_sim *sim, void *unused)
{
    (void)unused;
    pukzarn_sim_case(sim, ONE_PROCESS);
    waitpid(-1, NULL, __WALL);
    returned++;
}

static void has_a_faulty_case(pukzarn_sim *sim, void *unused)
{
    (void)unused;
    pukzarn_sim_case(sim, "tracee 100 100 77 0\nfrob\nend\n");
    returned++;
}

int main(void)
{
    for (size_t at = 0; at < sizeof calls / sizeof *calls; at++) {
        CHECK(pukzarn_model("not_simulated", test, &at), 1);
        CHECK(has_printed(calls[at].printed), 1);
    }
    CHECK(pukzarn_model("waits_itself", waits_itself, NULL), 1);
    CHECK(has_printed("waitpid is called by the test itself"), 1);
    CHECK(pukzarn_model("faulty_case", has_a_faulty_case, NULL), 1);
    CHECK(has_printed("a faulty case, line 2: "), 1);
    CHECK(returned, 0);
    return checked("not_simulated");
}
