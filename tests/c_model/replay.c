/* The printed line runs the failing schedule again, and no other one; models of other names ignore it. */
#define _GNU_SOURCE
#include "check_model.h"
#include <sys/ptrace.h>
#include <sys/wait.h>

/* Fails where a child's first stop comes before its parent's fork event. */
static void trace(void *unused)
{
    int status, pid, announced = 0;
    (void)unused;
    while ((pid = waitpid(-1, &status, __WALL)) > 0) {
        if (status >> 16 == PTRACE_EVENT_FORK)
            announced = 1;
        if (pid == 101 && !announced)
            pukzarn_fail("nobody has announced 101");
        if (WIFSTOPPED(status))
            ptrace(PTRACE_CONT, pid, 0, 0);
    }
}

static void test(pukzarn_sim *sim, void *runs)
{
    pukzarn_sim_case(sim, TWO_PROCESSES);
    pukzarn_sim_tracer(sim, "main", trace, NULL);
    ++*(int *)runs;
    PUKZARN_CHECK(pukzarn_sim_run(sim) == 0);
}

static void passes(pukzarn_sim *sim, void *runs)
{
    ++*(int *)runs;
    CHECK(pukzarn_sim_run(sim), 0);
}

/* Copies what is between two texts. */
static void cut_out(char *to, size_t room, const char *from, const char *before, const char *after)
{
    const char *begin = strstr(from, before), *end;
    CHECK(begin != NULL, 1);
    begin = begin == NULL ? from : begin + strlen(before);
    end = strstr(begin, after);
    CHECK(end != NULL && (size_t)(end - begin) < room, 1);
    snprintf(to, room, "%.*s", end == NULL ? 0 : (int)(end - begin), begin);
}

int main(void)
{
    char schedule[512], steps[4096], steps_again[4096];
    int runs = 0;
    CHECK(pukzarn_model("early", test, &runs), 1);
    CHECK(runs > 1, 1);
    CHECK(has_printed("thread `main` failed: nobody has announced 101\n"), 1);
    CHECK(has_printed("publish 100 fork 101"), 1);
    CHECK(has_printed("wait any 0: 101 stop 1 0x80057f"), 1);
    cut_out(schedule, sizeof schedule, printed(), "PUKZARN_SCHEDULE='", "'");
    cut_out(steps, sizeof steps, printed(), "101\n", "\nschedule");
    CHECK(strncmp(schedule, "early#1:", 8), 0);

    setenv("PUKZARN_SCHEDULE", schedule, 1);
    runs = 0;
    CHECK(pukzarn_model("early", test, &runs), 1);
    CHECK(runs, 1);
    cut_out(steps_again, sizeof steps_again, printed(), "101\n", "\nschedule");
    CHECK(strcmp(steps, steps_again), 0);
    runs = 0;
    CHECK(pukzarn_model("other", passes, &runs), 0);
    CHECK(runs, 1);
    unsetenv("PUKZARN_SCHEDULE");
    return checked("replay");
}
