/* Times rounds of one tracee and one tracer on one thread, through the handles of the library for C (make bench-c). In
 * a round the tracee takes its row up and publishes a stop, and the tracer waits for it and restarts it.
 * bench/rounds_inside.rattle makes the same calls inside Rattle. */
#include <pukzarn.h>
#include <stdio.h>
#include <stdlib.h>
#include <sys/wait.h>
#include <time.h>

static double nanoseconds(void)
{
    struct timespec now;
    clock_gettime(CLOCK_MONOTONIC, &now);
    return (double)now.tv_sec * 1e9 + (double)now.tv_nsec;
}

/* Makes rounds, and answers the sum of the numbers of their stops; fewer rounds where a call is refused. */
static unsigned long long make(pukzarn_tracee *tracee, pukzarn_tracer *tracer, unsigned long rounds)
{
    const struct pukzarn_stop enter = {PUKZARN_ENTER, 0};
    const struct pukzarn_restart cont = {PUKZARN_CONT, 0};
    struct pukzarn_restart restart;
    struct pukzarn_waited waited;
    unsigned long long sum = 0;
    for (unsigned long round = 0; round < rounds; round++) {
        uint32_t number;
        if (pukzarn_tracee_take_up(tracee, &restart) != 0 || pukzarn_tracee_publish(tracee, &enter, &number) != 0)
            return sum;
        if (pukzarn_tracer_waitid(tracer, P_ALL, 0, WSTOPPED, &waited) != 1)
            return sum;
        sum += waited.number;
        if (pukzarn_tracer_resume(tracer, 100, &cont) != 0)
            return sum;
    }
    return sum;
}

int main(int count, char **words)
{
    const struct pukzarn_row root = {100, 100, 77, 0};
    static pukzarn_tracee tracee;
    static pukzarn_tracer tracer;
    uint32_t faulty = 0;
    unsigned long rounds = count > 1 ? strtoul(words[1], NULL, 10) : 0;
    if (rounds == 0 || pukzarn_open(&root, 1, &tracee, 1, &tracer, 1, &faulty) != 0)
        return 2;
    double start = nanoseconds();
    unsigned long long sum = make(&tracee, &tracer, rounds);
    double each = (nanoseconds() - start) / (double)rounds;
    printf("%lu rounds, %.1f ns a round, sum %llu\n", rounds, each, sum);
    pukzarn_tracee_close(&tracee);
    pukzarn_tracer_close(&tracer);
    return 0;
}
