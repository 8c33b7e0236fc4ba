/* PTRACE_SEIZE sets options, and PTRACE_INTERRUPT stops a tracee before what it does next: over all schedules it comes
 * before each of its stops. */
#define _GNU_SOURCE
#include "check_model.h"
#include <sys/ptrace.h>
#include <sys/wait.h>

/* In how many schedules each was seen. */
static int interrupted, ended;

static void trace(void *unused)
{
    int status, interrupts = 1;
    (void)unused;
    CHECK_ERRNO(ptrace(PTRACE_SEIZE, 999, 0, 0), ESRCH);
    CHECK_ERRNO(ptrace(PTRACE_SEIZE, 100, (void *)1, 0), EIO);
    CHECK_ERRNO(ptrace(PTRACE_SEIZE, 100, 0, 0x40000000), EINVAL);
    CHECK(ptrace(PTRACE_SEIZE, 100, 0, PTRACE_O_TRACESYSGOOD | PTRACE_O_TRACEEXIT), 0);
    CHECK(waitpid(100, &status, 0), 100);
    CHECK(status, STATUS_START);
    do {
        CHECK(ptrace(PTRACE_CONT, 100, 0, 0), 0);
        if (interrupts-- > 0)
            CHECK(ptrace(PTRACE_INTERRUPT, 100, 0, 0), 0);
        CHECK(waitpid(100, &status, 0), 100);
        interrupted += status == STATUS_START;
        ended += status == STATUS_ENDING;
    } while (WIFSTOPPED(status));
}

static void test(pukzarn_sim *sim, void *unused)
{
    pukzarn_sim_case(sim, "tracee 100 100 77 0\nexit 3\nend\n");
    pukzarn_sim_tracer(sim, "main", trace, unused);
    CHECK(pukzarn_sim_run(sim), 0);
}

int main(void)
{
    CHECK(pukzarn_model("interrupts", test, NULL), 0);
    CHECK(has_printed("all interleavings"), 1);
    CHECK(interrupted > 0, 1);
    CHECK(ended > 0, 1);
    return checked("interrupts");
}
