/* A tracer that expects each child to be announced by its parent's fork event, and its test. */
#include <pukzarn_model.h>
#include <sys/ptrace.h>
#include <sys/wait.h>

/* The tracer's loop. Answers 0, or the pid of a tracee that nobody has announced. */
static int trace(int *known, int count, int expects_strangers)
{
    int status, pid;
    while ((pid = waitpid(-1, &status, __WALL)) > 0) {
        int at = 0;
        while (at < count && known[at] != pid)
            at++;
        if (at == count && !expects_strangers)
            return pid;
        if (!WIFSTOPPED(status))
            continue;
        if (status >> 16 == PTRACE_EVENT_FORK) {
            unsigned long child = 0;
            ptrace(PTRACE_GETEVENTMSG, pid, 0, &child);
            known[count++] = (int)child;
        }
        ptrace(PTRACE_CONT, pid, 0, 0);
    }
    return 0;
}

static void tracer(void *mended)
{
    int known[8] = {100};
    PUKZARN_CHECK(trace(known, 1, mended != NULL) == 0);
}

static void test(pukzarn_sim *sim, void *mended)
{
    pukzarn_sim_case(sim, "tracee 100 100 77 0\nfork 101\nexit 3\nend\ntracee 101 101 77 100\nexit 0\nend\n");
    pukzarn_sim_tracer(sim, "main", tracer, mended);
    PUKZARN_CHECK(pukzarn_sim_run(sim) == 0);
}

int main(void)
{
    int found = pukzarn_model("early_child", test, NULL);
    return pukzarn_model("mended", test, "mended") != 0 || found != 1;
}
