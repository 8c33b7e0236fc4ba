/* Misuse: closed handles, double close, open over open, another kind of handle; and by the checked layer NULL, copies,
 * and two threads in one handle at once. */
#include "check.h"
#include <pthread.h>
#include <pukzarn_checked.h>
#include <sys/wait.h>

enum { CALLS = 200000 };

static const char text[] = "tracee 100 100 77 0\nexit 0\nend\n";

static void closing_and_opening(void)
{
    struct pukzarn_row row = row_of(100, 100, 77, 0);
    pukzarn_record record = PUKZARN_CLOSED;
    pukzarn_board board = PUKZARN_CLOSED;
    uint32_t faulty;
    for (int i = 0; i < 3; i++) {
        CHECK(pukzarn_record_close(&record), -EBADF);
        CHECK(pukzarn_record_open(&record, 100), 0);
        CHECK(pukzarn_record_open(&record, 100), -EBUSY);
        CHECK(pukzarn_record_close(&record), 0);
        CHECK(record.live, 0);
        CHECK(pukzarn_board_close(&board), -EBADF);
        CHECK(pukzarn_board_open(&board, &row, 1, &faulty), 0);
        CHECK(pukzarn_board_open(&board, &row, 1, &faulty), -EBUSY);
        CHECK(pukzarn_board_close(&board), 0);
    }
}

/* The layouts are one, so a cast can hand a handle to a call of another kind. */
static void handles_of_another_kind(void)
{
    pukzarn_record record = PUKZARN_CLOSED;
    struct pukzarn_state state = no_state();
    struct pukzarn_waited waited = no_waited();
    void *handle = &record;
    CHECK(pukzarn_record_open(&record, 100), 0);
    CHECK(pukzarn_board_state((pukzarn_board *)handle, 0, &state), -EBADF);
    CHECK(pukzarn_board_close((pukzarn_board *)handle), -EBADF);
    CHECK(pukzarn_tracee_close((pukzarn_tracee *)handle), -EBADF);
    CHECK(pukzarn_tracer_waitid((pukzarn_tracer *)handle, P_ALL, 0, WEXITED, &waited), -EBADF);
    CHECK(pukzarn_tracer_close((pukzarn_tracer *)handle), -EBADF);
    CHECK(pukzarn_case_close((pukzarn_case *)handle), -EBADF);
    CHECK(pukzarn_machine_close((pukzarn_machine *)handle), -EBADF);
    CHECK(state.phase, UNTOUCHED);
    CHECK(pukzarn_record_close(&record), 0);
}

static void null_for_a_handle(void)
{
    struct pukzarn_regs regs;
    struct pukzarn_stop stop = stop_of(PUKZARN_START, 0);
    struct pukzarn_state state;
    struct pukzarn_restart restart = restart_of(PUKZARN_CONT, 0);
    uint32_t number;
    char byte = 'x';
    CHECK(pukzarn_checked_record_open(NULL, 100), -EFAULT);
    CHECK(pukzarn_checked_record_close(NULL), -EFAULT);
    CHECK(pukzarn_checked_record_getregs(NULL, &regs), -EFAULT);
    CHECK(pukzarn_checked_record_read(NULL, 0, &byte, 1), -EFAULT);
    CHECK(pukzarn_checked_board_close(NULL), -EFAULT);
    CHECK(pukzarn_checked_board_state(NULL, 0, &state), -EFAULT);
    CHECK(pukzarn_checked_tracee_take_up(NULL, &restart), -EFAULT);
    CHECK(pukzarn_checked_tracee_publish(NULL, &stop, &number), -EFAULT);
    CHECK(pukzarn_checked_tracer_resume(NULL, 100, &restart), -EFAULT);
    CHECK(pukzarn_checked_case_close(NULL), -EFAULT);
    CHECK(pukzarn_checked_machine_open(NULL, NULL, 0), -EFAULT);
    CHECK(pukzarn_checked_machine_next(NULL, &restart, NULL, &stop), -EFAULT);
    CHECK(pukzarn_checked_tracee_next(NULL, NULL, &stop), -EFAULT);
}

static void null_for_an_argument(void)
{
    pukzarn_checked_record record = PUKZARN_CHECKED_CLOSED;
    struct pukzarn_row row = row_of(100, 100, 77, 0);
    pukzarn_checked_tracee tracee = PUKZARN_CHECKED_CLOSED;
    pukzarn_checked_tracer tracer = PUKZARN_CHECKED_CLOSED;
    struct pukzarn_stop stop = no_stop();
    uint32_t number = UNTOUCHED, faulty = UNTOUCHED;
    CHECK(pukzarn_checked_version(NULL, 0), -EFAULT);
    CHECK(pukzarn_checked_record_open(&record, 100), 0);
    CHECK(pukzarn_checked_record_getregs(&record, NULL), -EFAULT);
    CHECK(pukzarn_checked_record_setregs(&record, NULL), -EFAULT);
    CHECK(pukzarn_checked_record_set_stop(&record, 1, NULL), -EFAULT);
    CHECK(pukzarn_checked_record_stop(&record, NULL, &stop), -EFAULT);
    CHECK(pukzarn_checked_record_stop(&record, &number, NULL), -EFAULT);
    CHECK(pukzarn_checked_record_message(&record, NULL), -EFAULT);
    CHECK(pukzarn_checked_record_read(&record, 0, NULL, 0), -EFAULT);
    CHECK(pukzarn_checked_record_write(&record, 0, NULL, 0), -EFAULT);
    CHECK(pukzarn_checked_record_syscall_info(&record, NULL, 0), -EFAULT);
    CHECK(pukzarn_checked_open(&row, 1, &tracee, 1, &tracer, 1, NULL), -EFAULT);
    CHECK(pukzarn_checked_open(NULL, 1, &tracee, 1, &tracer, 1, &faulty), -EFAULT);
    CHECK(pukzarn_checked_open(&row, 1, NULL, 1, &tracer, 1, &faulty), -EFAULT);
    CHECK(pukzarn_checked_open(&row, 1, &tracee, 1, NULL, 1, &faulty), -EFAULT);
    CHECK(pukzarn_checked_record_stop(&record, &number, &stop), 0); /* it is as it was */
    CHECK(number, 0);
    CHECK_STOP(stop, PUKZARN_START, 0);
    CHECK(pukzarn_checked_record_close(&record), 0);
}

/* A copy of an open handle is refused, also by an open and a close, and the handle itself goes on. */
static void copies(void)
{
    pukzarn_checked_record record = PUKZARN_CHECKED_CLOSED, copy;
    uint64_t message = UNTOUCHED;
    copy = record; /* a closed handle is as good as another */
    CHECK(pukzarn_checked_record_open(&copy, 100), 0);
    CHECK(pukzarn_checked_record_close(&copy), 0);
    CHECK(pukzarn_checked_record_open(&record, 100), 0);
    copy = record;
    CHECK(pukzarn_checked_record_message(&copy, &message), -EBADF);
    CHECK(pukzarn_checked_record_map(&copy, 0x10000), -EBADF);
    CHECK(pukzarn_checked_record_open(&copy, 100), -EBADF);
    CHECK(pukzarn_checked_record_close(&copy), -EBADF);
    CHECK(message, UNTOUCHED);
    CHECK(pukzarn_checked_record_map(&record, 0x10000), 0);
    CHECK(pukzarn_checked_record_open(&record, 100), -EBUSY);
    CHECK(pukzarn_checked_record_close(&record), 0);
    CHECK(pukzarn_checked_record_close(&record), -EBADF);
    CHECK(pukzarn_checked_record_close(&copy), -EBADF); /* nothing is given back twice */
}

/* One of the handles of an open is a copy of an open one: none is opened. */
static void copies_in_an_open(void)
{
    struct pukzarn_row rows[2] = {row_of(100, 100, 77, 0), row_of(101, 101, 77, 100)};
    pukzarn_checked_tracee tracees[2] = {PUKZARN_CHECKED_CLOSED, PUKZARN_CHECKED_CLOSED};
    pukzarn_checked_tracer tracers[17], copy;
    uint32_t faulty = UNTOUCHED;
    memset(tracers, 0, sizeof tracers);
    CHECK(pukzarn_checked_open(rows, 2, tracees, 2, tracers, 17, &faulty), -EINVAL);
    CHECK(pukzarn_checked_open(rows, 2, tracees, 2, tracers, 0, &faulty), -EINVAL);
    CHECK(pukzarn_checked_open(rows, 1, tracees, 1, tracers, 1, &faulty), 0);
    copy = tracers[0];
    CHECK(pukzarn_checked_open(rows, 1, tracees + 1, 1, &copy, 1, &faulty), -EBADF);
    CHECK(pukzarn_checked_open(rows, 1, tracees + 1, 1, tracers, 1, &faulty), -EBUSY);
    CHECK(pukzarn_checked_tracee_close(&tracees[1]), -EBADF);
    CHECK(pukzarn_checked_tracer_close(&copy), -EBADF);
    CHECK(pukzarn_checked_tracer_close(&tracers[0]), 0);
    CHECK(pukzarn_checked_tracee_close(&tracees[0]), 0);
}

/* A round of all six kinds through the checked layer, which answers as the plain one does. */
static void a_checked_round(void)
{
    pukzarn_checked_case script = PUKZARN_CHECKED_CLOSED;
    pukzarn_checked_machine machine = PUKZARN_CHECKED_CLOSED;
    pukzarn_checked_tracee tracee = PUKZARN_CHECKED_CLOSED;
    pukzarn_checked_tracer tracer = PUKZARN_CHECKED_CLOSED;
    pukzarn_checked_board board = PUKZARN_CHECKED_CLOSED;
    struct pukzarn_row row;
    struct pukzarn_restart restart = restart_of(UNTOUCHED, UNTOUCHED);
    struct pukzarn_stop stop = no_stop();
    uint32_t line, faulty, number = UNTOUCHED, waitable[1];
    char cause[16];
    int status = 0;
    CHECK(pukzarn_checked_case_open(&script, text, strlen(text), &line, cause, sizeof cause), 0);
    CHECK(pukzarn_checked_case_rows(&script, &row, 1), 1);
    CHECK(pukzarn_checked_machine_open(&machine, &script, 0), 0);
    CHECK(pukzarn_checked_board_open(&board, &row, 1, &faulty), 0);
    CHECK(pukzarn_checked_board_waitable(&board, P_ALL, 0, WEXITED, waitable, 1), 0);
    CHECK(pukzarn_checked_open(&row, 1, &tracee, 1, &tracer, 1, &faulty), 0);
    CHECK(pukzarn_checked_tracee_take_up(&tracee, &restart), 0);
    CHECK(pukzarn_checked_tracee_next(&tracee, &machine, &stop), 0);
    CHECK(pukzarn_checked_tracee_publish(&tracee, &stop, &number), 0);
    CHECK(pukzarn_checked_tracer_waitpid(&tracer, -1, &status, 0), 100);
    CHECK(status, STATUS_START);
    restart = restart_of(PUKZARN_CONT, 65);
    CHECK(pukzarn_checked_tracer_resume(&tracer, 100, &restart), -EIO);
    CHECK(pukzarn_checked_tracer_close(&tracer), 0);
    CHECK(pukzarn_checked_tracee_take_up(&tracee, &restart), 0);
    CHECK(restart.kind, PUKZARN_CONT);
    CHECK(pukzarn_checked_tracee_close(&tracee), 0);
    CHECK(pukzarn_checked_machine_close(&machine), 0);
    CHECK(pukzarn_checked_case_close(&script), 0);
    CHECK(pukzarn_checked_board_close(&board), 0);
}

/* Two threads in one handle: each call is answered, or is -EBUSY. */
struct shared {
    pukzarn_checked_record record;
    uint32_t answered, busy, others;
};

static void *set_and_read(void *place)
{
    struct shared *shared = (struct shared *)place;
    for (int i = 0; i < CALLS; i++) {
        char bytes[64];
        int answer = pukzarn_checked_record_write(&shared->record, 0x10000, "0123456789abcdef", 16);
        long length = answer == 0 ? pukzarn_checked_record_read(&shared->record, 0x10000, bytes, 64) : answer;
        if (length == 64)
            __atomic_add_fetch(&shared->answered, 1, __ATOMIC_RELAXED);
        else if (length == -EBUSY)
            __atomic_add_fetch(&shared->busy, 1, __ATOMIC_RELAXED);
        else
            __atomic_add_fetch(&shared->others, 1, __ATOMIC_RELAXED);
    }
    return NULL;
}

static void two_threads(void)
{
    static struct shared shared = {PUKZARN_CHECKED_CLOSED, 0, 0, 0};
    pthread_t threads[2];
    CHECK(pukzarn_checked_record_open(&shared.record, 100), 0);
    CHECK(pukzarn_checked_record_map(&shared.record, 0x10000), 0);
    for (int i = 0; i < 2; i++)
        CHECK(pthread_create(&threads[i], NULL, set_and_read, &shared), 0);
    for (int i = 0; i < 2; i++)
        CHECK(pthread_join(threads[i], NULL), 0);
    CHECK(shared.answered + shared.busy, 2 * CALLS);
    CHECK(shared.others, 0);
    CHECK(shared.answered > 0, 1);
    CHECK(pukzarn_checked_record_close(&shared.record), 0);
}

/* A call that is under way, as another thread would see it. */
static void a_call_under_way(void)
{
    pukzarn_checked_record record = PUKZARN_CHECKED_CLOSED;
    uint64_t message = UNTOUCHED;
    CHECK(pukzarn_checked_record_open(&record, 100), 0);
    record.check.busy = 1;
    CHECK(pukzarn_checked_record_message(&record, &message), -EBUSY);
    CHECK(pukzarn_checked_record_close(&record), -EBUSY);
    record.check.busy = 0;
    CHECK(message, UNTOUCHED);
    CHECK(pukzarn_checked_record_message(&record, &message), 0);
    CHECK(pukzarn_checked_record_close(&record), 0);
}

int main(void)
{
    closing_and_opening();
    handles_of_another_kind();
    null_for_a_handle();
    null_for_an_argument();
    copies();
    copies_in_an_open();
    a_checked_round();
    two_threads();
    a_call_under_way();
    return checked("misuse");
}
