/* A tracer and the tracees of a case, on one thread. The tracer's loop is `trace`. */
#include <errno.h>
#include <pukzarn.h>
#include <stdio.h>
#include <string.h>
#include <sys/ptrace.h>
#include <sys/wait.h>

static const char text[] = "tracee 100 100 77 0\ncall getpid = 100\nsignal 10\nfork 101\nexit 3\nend\n"
                           "tracee 101 101 77 100\nexit 0\nend\n";
static pukzarn_case script;
static pukzarn_machine machines[2];
static pukzarn_tracee tracees[2];
static pukzarn_tracer tracer;

/* Lets a tracee run to its next stop, or to its end, if it is to run. */
static void run(uint32_t row)
{
    struct pukzarn_restart restart;
    struct pukzarn_stop stop;
    uint32_t number;
    int answer = pukzarn_tracee_take_up(&tracees[row], &restart);
    if (answer == 0)
        answer = pukzarn_tracee_next(&tracees[row], &machines[row], &stop);
    if (answer == 0)
        pukzarn_tracee_publish(&tracees[row], &stop, &number);
    if (answer == 1)
        pukzarn_tracee_exit(&tracees[row], stop.value);
}

/* Waits for any tracee, prints its status, and restarts it, until nobody is left. */
static void trace(void)
{
    int status, pid;
    while ((pid = pukzarn_tracer_waitpid(&tracer, -1, &status, __WALL)) != -ECHILD) {
        struct pukzarn_restart restart = {PUKZARN_SYSCALL, 0};
        if (pid == 0) {
            run(0);
            run(1);
            continue;
        }
        printf("%d 0x%06x\n", pid, (unsigned)status);
        if (!WIFSTOPPED(status))
            continue;
        if (status >> 16 == 0 && (WSTOPSIG(status) & 0x80) == 0)
            restart.signal = (uint32_t)WSTOPSIG(status); /* a signal is handed on */
        pukzarn_tracer_resume(&tracer, pid, &restart);
    }
}

int main(void)
{
    struct pukzarn_row rows[2];
    uint32_t place = 0;
    char cause[16];
    int answer = pukzarn_case_open(&script, text, strlen(text), &place, cause, sizeof cause);
    for (uint32_t row = 0; answer == 0 && row < 2; row++) {
        answer = pukzarn_machine_open(&machines[row], &script, row);
        pukzarn_machine_options(&machines[row], PTRACE_O_TRACESYSGOOD | PTRACE_O_TRACEFORK | PTRACE_O_TRACECLONE);
    }
    if (answer == 0 && pukzarn_case_rows(&script, rows, 2) == 2)
        answer = pukzarn_open(rows, 2, tracees, 2, &tracer, 1, &place);
    if (answer != 0)
        return fprintf(stderr, "%s (line or row %u)\n", strerror(-answer), place), 1;
    trace();
    pukzarn_tracer_close(&tracer);
    for (uint32_t row = 0; row < 2; row++) {
        pukzarn_tracee_close(&tracees[row]);
        pukzarn_machine_close(&machines[row]);
    }
    pukzarn_case_close(&script);
    return 0;
}
