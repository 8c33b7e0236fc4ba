/* Scripts and a tracer's loop on threads, a thread for each tracee and for each tracer: with 1, 2 and 16 tracers each
 * stop is got once. First the case of docs/formats/case-files.md, and then one of 20,000 stops. */
#include "check.h"
#include <pthread.h>
#include <sched.h>
#include <sys/ptrace.h>
#include <sys/wait.h>

enum { MOST_ROWS = 4, MOST_TRACERS = 16, MOST_STOPS = 5000, ROUNDS = 10 };

static const uint32_t options = PTRACE_O_TRACESYSGOOD | PTRACE_O_TRACEFORK | PTRACE_O_TRACECLONE;

/* What a case is to have: of each row how many stops, and the status of its death. */
struct wanted {
    uint32_t rows;
    uint32_t stops[MOST_ROWS];
    uint32_t death[MOST_ROWS];
};

/* One run of a case, and how often each of its stops and deaths was got. */
struct run {
    pukzarn_tracee tracees[MOST_ROWS];
    pukzarn_machine machines[MOST_ROWS];
    pukzarn_tracer tracers[MOST_TRACERS];
    uint32_t tids[MOST_ROWS];
    uint32_t stops[MOST_ROWS][MOST_STOPS + 1];
    uint32_t deaths[MOST_ROWS];
    uint32_t statuses[MOST_ROWS];
};

static struct run run;

/* Ends a tracee, once all others of its thread group have ended. */
static void end(pukzarn_tracee *tracee, uint32_t status)
{
    int answer;
    while ((answer = pukzarn_tracee_exit(tracee, status)) == -EBUSY)
        sched_yield();
    CHECK(answer, 0);
}

static void *tracee_thread(void *place)
{
    uint32_t row = (uint32_t)(size_t)place;
    pukzarn_tracee *tracee = &run.tracees[row];
    for (uint32_t wanted = 1;; wanted++) {
        struct pukzarn_restart restart;
        struct pukzarn_stop stop;
        uint32_t number = 0;
        int answer;
        while ((answer = pukzarn_tracee_take_up(tracee, &restart)) == -EAGAIN)
            sched_yield();
        CHECK(answer, 0);
        if (answer != 0)
            return NULL;
        answer = pukzarn_tracee_next(tracee, &run.machines[row], &stop);
        if (answer != 0) {
            CHECK(answer, 1);
            end(tracee, stop.value);
            return NULL;
        }
        CHECK(pukzarn_tracee_publish(tracee, &stop, &number), 0);
        CHECK(number, wanted);
    }
}

/* Counts what a wait has reported. */
static void count(const struct pukzarn_waited *waited)
{
    CHECK(waited->tid, run.tids[waited->row]);
    if (waited->death) {
        __atomic_add_fetch(&run.deaths[waited->row], 1, __ATOMIC_RELAXED);
        run.statuses[waited->row] = waited->status;
    } else
        __atomic_add_fetch(&run.stops[waited->row][waited->number], 1, __ATOMIC_RELAXED);
}

/* The tracer's loop: it ends once nobody is left to wait for. */
static void *tracer_thread(void *place)
{
    pukzarn_tracer *tracer = &run.tracers[(size_t)place];
    for (;;) {
        struct pukzarn_waited waited;
        struct pukzarn_stop stop;
        struct pukzarn_restart restart = restart_of(PUKZARN_SYSCALL, 0);
        uint32_t number = 0;
        int answer = pukzarn_tracer_waitid(tracer, P_ALL, 0, WEXITED | WSTOPPED | WNOHANG, &waited);
        if (answer == 0)
            sched_yield();
        if (answer == -ECHILD)
            return NULL;
        if (answer != 1) {
            CHECK(answer, 0);
            continue;
        }
        count(&waited);
        if (waited.death)
            continue;
        CHECK(pukzarn_tracer_stop(tracer, (int32_t)waited.tid, &number, &stop), 0);
        CHECK(number, waited.number);
        if (stop.kind == PUKZARN_SIGNAL)
            restart.signal = stop.value;
        CHECK(pukzarn_tracer_resume(tracer, (int32_t)waited.tid, &restart), 0);
    }
}

/* Opens cells over a case, and the machine of each row. */
static void open_run(const char *text, const struct wanted *wanted, size_t tracers)
{
    pukzarn_case script = PUKZARN_CLOSED;
    struct pukzarn_row rows[MOST_ROWS];
    uint32_t line = 0, faulty = 0;
    char cause[16] = "";
    memset(&run, 0, sizeof run);
    CHECK(pukzarn_case_open(&script, text, strlen(text), &line, cause, sizeof cause), 0);
    CHECK(pukzarn_case_rows(&script, rows, MOST_ROWS), wanted->rows);
    for (uint32_t row = 0; row < wanted->rows; row++) {
        run.tids[row] = rows[row].tid;
        CHECK(pukzarn_machine_open(&run.machines[row], &script, row), 0);
        CHECK(pukzarn_machine_options(&run.machines[row], options), 0);
    }
    CHECK(pukzarn_case_close(&script), 0);
    CHECK(pukzarn_open(rows, wanted->rows, run.tracees, wanted->rows, run.tracers, tracers, &faulty), 0);
}

/* A thread for each handle, until all have ended. */
static void run_threads(uint32_t rows, size_t tracers)
{
    pthread_t threads[MOST_ROWS + MOST_TRACERS];
    size_t started = 0;
    for (size_t row = 0; row < rows; row++)
        CHECK(pthread_create(&threads[started++], NULL, tracee_thread, (void *)row), 0);
    for (size_t tracer = 0; tracer < tracers; tracer++)
        CHECK(pthread_create(&threads[started++], NULL, tracer_thread, (void *)tracer), 0);
    while (started > 0)
        CHECK(pthread_join(threads[--started], NULL), 0);
}

/* Each stop and each death was got once, no other, and each row is reaped. */
static void check_run(const struct wanted *wanted, size_t tracers)
{
    for (uint32_t row = 0; row < wanted->rows; row++) {
        struct pukzarn_state state = no_state();
        for (uint32_t number = 0; number <= MOST_STOPS; number++)
            CHECK(run.stops[row][number], number >= 1 && number <= wanted->stops[row]);
        CHECK(run.deaths[row], 1);
        CHECK(run.statuses[row], wanted->death[row]);
        CHECK(pukzarn_tracer_look(&run.tracers[0], row, &state), 0);
        CHECK_STATE(state, PUKZARN_REAPED, 0, 0, 0);
        CHECK(pukzarn_tracee_close(&run.tracees[row]), 0);
        CHECK(pukzarn_machine_close(&run.machines[row]), 0);
    }
    for (size_t tracer = 0; tracer < tracers; tracer++)
        CHECK(pukzarn_tracer_close(&run.tracers[tracer]), 0);
}

static void run_case(const char *text, const struct wanted *wanted, size_t tracers)
{
    open_run(text, wanted, tracers);
    if (failed_checks != 0)
        exit(1);
    run_threads(wanted->rows, tracers);
    check_run(wanted, tracers);
}

static const char worked[] = "tracee 100 100 77 0\npage 0x10000\ndata 0x10000 68690a\ncall write 1 0x10000 3 = 3\n"
                             "fork 101\nexit 3\nend\ntracee 101 101 77 100\nexit 0\nend\n";

/* START; ENTER and EXIT of write; ENTER, FORK and EXIT; ENTER of exit. START and ENTER of the child's. */
static const struct wanted of_worked = {2, {7, 2, 0, 0}, {STATUS_EXITED_3, 0, 0, 0}};

/* START, two stops for each of 2499 calls, and ENTER of exit: 5000 for each of four rows. */
static const struct wanted of_large = {4, {5000, 5000, 5000, 5000}, {0, 0x100, 0x200, STATUS_EXITED_3}};

/* Four roots of 2499 calls each. */
static char *large_case(void)
{
    size_t room = 4 * (2499 * 20 + 100), length = 0;
    char *text = (char *)malloc(room);
    CHECK(text != NULL, 1);
    for (int row = 0; text != NULL && row < 4; row++) {
        length += (size_t)snprintf(text + length, room - length, "tracee %d %d 77 0\n", 100 + row, 100 + row);
        for (int call = 0; call < 2499; call++)
            length += (size_t)snprintf(text + length, room - length, "call getpid = %d\n", 100 + row);
        length += (size_t)snprintf(text + length, room - length, "exit %d\nend\n", row);
    }
    return text;
}

int main(void)
{
    static const size_t tracers[] = {1, 2, MOST_TRACERS};
    char *large = large_case();
    for (size_t i = 0; large != NULL && i < sizeof tracers / sizeof *tracers; i++) {
        for (int round = 0; round < ROUNDS; round++)
            run_case(worked, &of_worked, tracers[i]);
        run_case(large, &of_large, tracers[i]);
    }
    free(large);
    return checked("tracers");
}
