/* Each call of a tracee's and of a tracer's handle once with an answer worked out by hand, and each refusal once. */
#include "check.h"
#include <sys/wait.h>

/* Cells over three rows: a root, a thread of its group, and a forked child; and two tracers. */
struct cells {
    pukzarn_tracee tracees[3];
    pukzarn_tracer tracers[2];
};

enum { ROOT, THREAD, CHILD };

static void open_cells(struct cells *cells)
{
    struct pukzarn_row rows[3] = {row_of(100, 100, 77, 0), row_of(101, 100, 77, 100), row_of(102, 102, 77, 100)};
    uint32_t faulty = UNTOUCHED;
    memset(cells, 0, sizeof *cells);
    CHECK(pukzarn_open(rows, 3, cells->tracees, 3, cells->tracers, 2, &faulty), 0);
    CHECK(faulty, UNTOUCHED);
}

static void close_cells(struct cells *cells)
{
    for (int i = 0; i < 3; i++)
        CHECK(pukzarn_tracee_close(&cells->tracees[i]), 0);
    for (int i = 0; i < 2; i++)
        CHECK(pukzarn_tracer_close(&cells->tracers[i]), 0);
}

static int publish(pukzarn_tracee *tracee, uint32_t kind, uint32_t value, uint32_t *number)
{
    struct pukzarn_stop stop = stop_of(kind, value);
    return pukzarn_tracee_publish(tracee, &stop, number);
}

static int resume(pukzarn_tracer *tracer, int32_t pid, uint32_t kind, uint32_t signal)
{
    struct pukzarn_restart restart = restart_of(kind, signal);
    return pukzarn_tracer_resume(tracer, pid, &restart);
}

/* A tracee takes up and publishes, and its stop has this number. */
static void stops(pukzarn_tracee *tracee, uint32_t kind, uint32_t value, uint32_t wanted)
{
    struct pukzarn_restart restart;
    uint32_t number = UNTOUCHED;
    CHECK(pukzarn_tracee_take_up(tracee, &restart), 0);
    CHECK(publish(tracee, kind, value, &number), 0);
    CHECK(number, wanted);
}

#define CHECK_LOOK(tracer, row, phase, number, status) \
    do { \
        struct pukzarn_state state_ = no_state(); \
        CHECK(pukzarn_tracer_look((tracer), (row), &state_), 0); \
        CHECK_STATE(state_, phase, number, 0, status); \
    } while (0)

static void opens_all_or_none(void)
{
    struct pukzarn_row rows[2] = {row_of(100, 100, 77, 0), row_of(101, 102, 77, 100)};
    pukzarn_tracee tracees[2] = {PUKZARN_CLOSED, PUKZARN_CLOSED};
    pukzarn_tracer tracers[17];
    uint32_t faulty = UNTOUCHED;
    memset(tracers, 0, sizeof tracers);
    CHECK(pukzarn_open(rows, 1, tracees, 1, tracers, 0, &faulty), -EINVAL);
    CHECK(pukzarn_open(rows, 1, tracees, 1, tracers, 17, &faulty), -EINVAL);
    CHECK(pukzarn_open(rows, 1, tracees, 2, tracers, 1, &faulty), -EINVAL);
    CHECK(faulty, UNTOUCHED);
    CHECK(pukzarn_open(rows, 2, tracees, 2, tracers, 1, &faulty), -EINVAL);
    CHECK(faulty, 1); /* tgid 102 is neither the child's nor the parent's */
    CHECK(pukzarn_tracee_close(&tracees[0]), -EBADF);
    CHECK(pukzarn_tracer_close(&tracers[0]), -EBADF);
    CHECK(pukzarn_open(rows, 1, tracees + 1, 1, tracers, 16, &faulty), 0);
    rows[1] = row_of(101, 101, 77, 100);
    CHECK(pukzarn_open(rows, 2, tracees, 2, tracers + 16, 1, &faulty), -EBUSY); /* tracees[1] is open */
    CHECK(pukzarn_open(rows, 1, tracees, 1, tracers, 16, &faulty), -EBUSY);
    CHECK(pukzarn_tracee_close(&tracees[0]), -EBADF);
    CHECK(pukzarn_tracer_close(&tracers[16]), -EBADF);
    CHECK(pukzarn_tracee_close(&tracees[1]), 0);
    for (int i = 0; i < 16; i++)
        CHECK(pukzarn_tracer_close(&tracers[i]), 0);
    /* No rows: nobody to wait for. */
    CHECK(pukzarn_open(rows, 0, tracees, 0, tracers, 1, &faulty), 0);
    CHECK_LOOK(&tracers[0], 0, PUKZARN_ABSENT, 0, 0);
    CHECK(pukzarn_tracer_close(&tracers[0]), 0);
}

/* The life of a stop, from take-up to take-up. */
static void a_stop_and_its_restart(void)
{
    struct cells cells;
    pukzarn_tracee *root = &cells.tracees[ROOT];
    struct pukzarn_restart restart = restart_of(UNTOUCHED, UNTOUCHED);
    struct pukzarn_waited waited = no_waited();
    uint32_t number = UNTOUCHED;
    open_cells(&cells);
    CHECK_LOOK(&cells.tracers[0], ROOT, PUKZARN_RUNNING, 0, 0);
    CHECK(publish(root, PUKZARN_START, 0, &number), -EALREADY); /* not taken up */
    CHECK(pukzarn_tracee_exit(root, 0), -EALREADY);
    CHECK(pukzarn_tracee_take_up(root, &restart), 0);
    CHECK(restart.kind, PUKZARN_CONT);
    CHECK(restart.signal, 0);
    restart = restart_of(UNTOUCHED, UNTOUCHED);
    CHECK(pukzarn_tracee_take_up(root, &restart), -EALREADY);
    CHECK(publish(root, PUKZARN_SIGNAL, 0, &number), -EINVAL);
    CHECK(publish(root, PUKZARN_FORK, 101, &number), 0); /* row 1 is its next child */
    CHECK(number, 1);
    CHECK_LOOK(&cells.tracers[1], ROOT, PUKZARN_STOPPED, 1, STATUS_FORK);
    CHECK(pukzarn_tracee_take_up(root, &restart), -EAGAIN);
    CHECK(pukzarn_tracer_waitid(&cells.tracers[0], P_ALL, 0, WEXITED, &waited), 1);
    CHECK_WAITED(waited, ROOT, 100, 1, STATUS_FORK, 0);
    CHECK_LOOK(&cells.tracers[0], ROOT, PUKZARN_CLAIMED, 1, 0);
    CHECK_LOOK(&cells.tracers[1], ROOT, PUKZARN_CLAIMED, 1, 0);
    CHECK(pukzarn_tracee_take_up(root, &restart), -EAGAIN);
    CHECK(restart.kind, UNTOUCHED);
    CHECK(resume(&cells.tracers[1], 100, PUKZARN_CONT, 0), -ESRCH); /* tracer 0 has it */
    CHECK(resume(&cells.tracers[0], 999, PUKZARN_CONT, 65), -ESRCH);
    CHECK(resume(&cells.tracers[0], 100, 2, 0), -EINVAL);
    CHECK(resume(&cells.tracers[0], 100, PUKZARN_CONT, 65), -EIO);
    CHECK(resume(&cells.tracers[0], 100, PUKZARN_SYSCALL, 15), 0);
    CHECK(resume(&cells.tracers[0], 100, PUKZARN_SYSCALL, 15), -ESRCH);
    CHECK(pukzarn_tracee_take_up(root, &restart), 0);
    CHECK(restart.kind, PUKZARN_SYSCALL);
    CHECK(restart.signal, 15);
    CHECK(publish(root, PUKZARN_CLONE, 101, &number), -EINVAL); /* it is born: 102 is next */
    CHECK(publish(root, PUKZARN_CLONE, 102, &number), 0);
    CHECK(number, 2);
    close_cells(&cells);
}

/* Births: not yet, born, and never. */
static void births(void)
{
    struct cells cells;
    struct pukzarn_restart restart = restart_of(UNTOUCHED, UNTOUCHED);
    struct pukzarn_waited waited = no_waited();
    open_cells(&cells);
    CHECK(pukzarn_tracee_take_up(&cells.tracees[THREAD], &restart), -EAGAIN);
    CHECK_LOOK(&cells.tracers[0], THREAD, PUKZARN_UNBORN, 0, 0);
    CHECK(pukzarn_tracer_wait_row(&cells.tracers[0], THREAD, WEXITED, &waited), -ECHILD);
    CHECK(pukzarn_tracer_waitid(&cells.tracers[0], P_PID, 101, WEXITED, &waited), -ECHILD);
    stops(&cells.tracees[ROOT], PUKZARN_CLONE, 101, 1);
    CHECK_LOOK(&cells.tracers[0], THREAD, PUKZARN_RUNNING, 0, 0);
    stops(&cells.tracees[THREAD], PUKZARN_START, 0, 1);
    CHECK(pukzarn_tracer_wait_row(&cells.tracers[1], THREAD, WSTOPPED, &waited), 1);
    CHECK_WAITED(waited, THREAD, 101, 1, STATUS_START, 0);
    CHECK(resume(&cells.tracers[1], 101, PUKZARN_CONT, 0), 0);
    CHECK(pukzarn_tracer_wait_row(&cells.tracers[0], ROOT, WSTOPPED, &waited), 1);
    CHECK(resume(&cells.tracers[0], 100, PUKZARN_CONT, 0), 0);
    /* The leader's exit is held back by its thread, and then the child can never be born. */
    CHECK(pukzarn_tracee_take_up(&cells.tracees[ROOT], &restart), 0);
    CHECK(pukzarn_tracee_exit(&cells.tracees[ROOT], 0x7f), -EINVAL);
    CHECK(pukzarn_tracee_exit(&cells.tracees[ROOT], STATUS_EXITED_3), -EBUSY);
    CHECK(pukzarn_tracee_take_up(&cells.tracees[THREAD], &restart), 0);
    CHECK(pukzarn_tracee_exit(&cells.tracees[THREAD], STATUS_KILLED_TERM), 0);
    CHECK(pukzarn_tracee_take_up(&cells.tracees[THREAD], &restart), -EALREADY); /* ended */
    CHECK(pukzarn_tracee_take_up(&cells.tracees[CHILD], &restart), -EAGAIN);
    CHECK(pukzarn_tracee_exit(&cells.tracees[ROOT], STATUS_EXITED_3), 0);
    CHECK(pukzarn_tracee_take_up(&cells.tracees[CHILD], &restart), -ECHILD);
    CHECK_LOOK(&cells.tracers[0], ROOT, PUKZARN_DEAD, 1, STATUS_EXITED_3);
    close_cells(&cells);
}

/* WNOWAIT shows, stops alone are asked for by WSTOPPED, and "no child" is for good. */
static void waits(void)
{
    struct cells cells;
    pukzarn_tracer *tracer = &cells.tracers[0];
    struct pukzarn_restart restart;
    struct pukzarn_waited waited = no_waited();
    open_cells(&cells);
    CHECK(pukzarn_tracer_waitid(tracer, P_ALL, 0, WEXITED, &waited), 0);
    CHECK(waited.row, UNTOUCHED);
    stops(&cells.tracees[ROOT], PUKZARN_START, 0, 1);
    for (int i = 0; i < 2; i++) {
        waited = no_waited();
        CHECK(pukzarn_tracer_waitid(tracer, P_PGID, 77, WSTOPPED | WNOWAIT, &waited), 1);
        CHECK_WAITED(waited, ROOT, 100, 1, STATUS_START, 0);
    }
    CHECK(pukzarn_tracer_waitid(tracer, P_PID, 100, WSTOPPED, &waited), 1);
    waited = no_waited();
    CHECK(pukzarn_tracer_waitid(tracer, P_PID, 100, WSTOPPED, &waited), 0);
    CHECK(resume(tracer, 100, PUKZARN_CONT, 0), 0);
    CHECK(pukzarn_tracee_take_up(&cells.tracees[ROOT], &restart), 0);
    CHECK(pukzarn_tracee_exit(&cells.tracees[ROOT], STATUS_CORE_SEGV), 0);
    CHECK(pukzarn_tracer_waitid(tracer, P_ALL, 0, WSTOPPED, &waited), -ECHILD);
    CHECK(waited.row, UNTOUCHED);
    CHECK(pukzarn_tracer_waitid(tracer, P_ALL, 0, WEXITED, &waited), 1);
    CHECK_WAITED(waited, ROOT, 100, 1, STATUS_CORE_SEGV, 1);
    CHECK(pukzarn_tracer_waitid(tracer, P_ALL, 0, WEXITED, &waited), -ECHILD);
    CHECK_LOOK(tracer, ROOT, PUKZARN_REAPED, 0, 0);
    close_cells(&cells);
}

static void waits_that_are_refused(void)
{
    struct cells cells;
    pukzarn_tracer *tracer = &cells.tracers[0];
    struct pukzarn_waited waited = no_waited();
    int status = UNTOUCHED & 0x7fffffff;
    open_cells(&cells);
    stops(&cells.tracees[ROOT], PUKZARN_START, 0, 1);
    CHECK(pukzarn_tracer_waitid(tracer, 3, 100, WEXITED, &waited), -EINVAL);
    CHECK(pukzarn_tracer_waitid(tracer, P_PID, 0, WEXITED, &waited), -EINVAL);
    CHECK(pukzarn_tracer_waitid(tracer, P_PGID, -77, WEXITED, &waited), -EINVAL);
    CHECK(pukzarn_tracer_waitid(tracer, P_ALL, 0, WNOHANG, &waited), -EINVAL);
    CHECK(pukzarn_tracer_waitid(tracer, P_ALL, 0, WEXITED | WCONTINUED, &waited), -EINVAL);
    CHECK(pukzarn_tracer_waitid(tracer, P_ALL, 0, WEXITED | 0x10, &waited), -EINVAL);
    CHECK(pukzarn_tracer_waitid(tracer, P_PID, 999, WEXITED, &waited), -ECHILD);
    CHECK(pukzarn_tracer_wait_row(tracer, ROOT, WNOHANG, &waited), -EINVAL);
    CHECK(pukzarn_tracer_wait_row(tracer, 3, WEXITED, &waited), -EINVAL);
    CHECK(pukzarn_tracer_waitpid(tracer, 100, &status, WNOWAIT), -EINVAL);
    CHECK(pukzarn_tracer_waitpid(tracer, 100, &status, WEXITED), -EINVAL);
    CHECK(pukzarn_tracer_waitpid(tracer, 0, &status, 0), -EINVAL);
    CHECK(pukzarn_tracer_waitpid(tracer, INT32_MIN, &status, 0), -EINVAL);
    CHECK(pukzarn_tracer_waitpid(tracer, 999, &status, 0), -ECHILD);
    CHECK(pukzarn_tracer_waitpid(tracer, -78, &status, 0), -ECHILD);
    CHECK(status, UNTOUCHED & 0x7fffffff);
    CHECK(waited.row, UNTOUCHED);
    CHECK_LOOK(tracer, ROOT, PUKZARN_STOPPED, 1, STATUS_START);
    close_cells(&cells);
}

/* waitpid asks for deaths too, and its pid says whom it asks for. */
static void waits_by_pid(void)
{
    struct cells cells;
    pukzarn_tracer *tracer = &cells.tracers[1];
    struct pukzarn_restart restart;
    int status = 0;
    open_cells(&cells);
    CHECK(pukzarn_tracer_waitpid(tracer, -1, &status, WNOHANG), 0);
    CHECK(status, 0);
    stops(&cells.tracees[ROOT], PUKZARN_SIGNAL, 15, 1);
    CHECK(pukzarn_tracer_waitpid(tracer, -77, &status, WUNTRACED | __WALL), 100);
    CHECK(status, STATUS_SIGTERM);
    CHECK(WIFSTOPPED(status), 1);
    CHECK(WSTOPSIG(status), 15);
    CHECK(resume(tracer, 100, PUKZARN_CONT, 15), 0);
    CHECK(pukzarn_tracee_take_up(&cells.tracees[ROOT], &restart), 0);
    CHECK(restart.kind, PUKZARN_CONT);
    CHECK(restart.signal, 15);
    CHECK(pukzarn_tracee_exit(&cells.tracees[ROOT], STATUS_KILLED_TERM), 0);
    CHECK(pukzarn_tracer_waitpid(tracer, 100, &status, 0), 100);
    CHECK(WIFSIGNALED(status), 1);
    CHECK(WTERMSIG(status), 15);
    CHECK(pukzarn_tracer_waitpid(tracer, -1, &status, 0), -ECHILD);
    close_cells(&cells);
}

/* What is in hand: registers, and bytes at the end of the only page. */
static void fill_record(pukzarn_tracee *root)
{
    struct pukzarn_restart restart;
    struct pukzarn_regs regs;
    char bytes[9] = "xxxxxxxx";
    CHECK(pukzarn_tracee_take_up(root, &restart), 0);
    memset(&regs, 0xab, sizeof regs);
    CHECK(pukzarn_tracee_getregs(root, &regs), 0);
    CHECK(regs.rip, 0);
    regs.rip = 0x401002;
    regs.rbx = 6;
    CHECK(pukzarn_tracee_setregs(root, &regs), 0);
    CHECK(pukzarn_tracee_map(root, 0x10001), -EINVAL);
    CHECK(pukzarn_tracee_map(root, 0x10000), 0);
    CHECK(pukzarn_tracee_map(root, 0x10000), -EEXIST);
    CHECK(pukzarn_tracee_write(root, 0x10ffe, "abc", 3), -EIO);
    CHECK(pukzarn_tracee_write(root, 0x10ffa, "abcdef", 6), 0);
    CHECK(pukzarn_tracee_read(root, 0x10ffe, bytes, 8), 2);
    CHECK_TEXT(bytes, "efxxxxxx");
}

/* What the tracer that has claimed the stop sees of it. */
static void see_record(pukzarn_tracer *tracer)
{
    struct pukzarn_regs regs;
    struct pukzarn_stop stop = no_stop();
    uint32_t number = UNTOUCHED;
    uint64_t message = UNTOUCHED;
    char bytes[9] = "xxxxxxxx";
    unsigned char info[24];
    CHECK(pukzarn_tracer_stop(tracer, 100, &number, &stop), 0);
    CHECK(number, 1);
    CHECK_STOP(stop, PUKZARN_CLONE, 101);
    CHECK(pukzarn_tracer_message(tracer, 100, &message), 0);
    CHECK(message, 101);
    CHECK(pukzarn_tracer_getregs(tracer, 100, &regs), 0);
    CHECK(regs.rip, 0x401002);
    CHECK(regs.rbx, 6);
    CHECK(pukzarn_tracer_syscall_info(tracer, 100, info, sizeof info), 24);
    CHECK_BYTES(info, "\0\0\0\0\x3e\0\0\xc0\x02\x10\x40\0\0\0\0\0\0\0\0\0\0\0\0\0", 24);
    CHECK(pukzarn_tracer_read(tracer, 100, 0x10ffa, bytes, 8), 6);
    CHECK_TEXT(bytes, "abcdefxx");
}

/* The record goes to the tracer with the stop, and back with what the tracer has set. */
static void the_record_goes_to_and_fro(void)
{
    struct cells cells;
    pukzarn_tracee *root = &cells.tracees[ROOT];
    pukzarn_tracer *tracer = &cells.tracers[0];
    struct pukzarn_restart restart;
    struct pukzarn_regs regs;
    uint32_t number;
    char bytes[9] = "xxxxxxxx";
    int status = 0;
    open_cells(&cells);
    fill_record(root);
    CHECK(publish(root, PUKZARN_CLONE, 101, &number), 0);
    CHECK(pukzarn_tracer_waitpid(tracer, 100, &status, 0), 100);
    CHECK(status, STATUS_CLONE);
    see_record(tracer);
    CHECK(pukzarn_tracer_write(tracer, 100, 0x10ffe, "123", 3), -EIO);
    CHECK(pukzarn_tracer_write(tracer, 100, 0x10ffe, "12", 2), 0);
    CHECK(pukzarn_tracer_getregs(tracer, 100, &regs), 0);
    regs.rbx = 7;
    CHECK(pukzarn_tracer_setregs(tracer, 100, &regs), 0);
    CHECK(resume(tracer, 100, PUKZARN_CONT, 0), 0);
    CHECK(pukzarn_tracee_take_up(root, &restart), 0);
    CHECK(pukzarn_tracee_getregs(root, &regs), 0);
    CHECK(regs.rbx, 7);
    CHECK(regs.rip, 0x401002);
    CHECK(pukzarn_tracee_read(root, 0x10ffa, bytes, 8), 6);
    CHECK_TEXT(bytes, "abcd12xx");
    close_cells(&cells);
}

/* The calls on a record refuse where it is not in hand, or not claimed by this tracer. */
static void records_that_are_not_here(void)
{
    struct cells cells;
    pukzarn_tracee *root = &cells.tracees[ROOT];
    pukzarn_tracer *other = &cells.tracers[1];
    struct pukzarn_regs regs;
    struct pukzarn_stop stop = no_stop();
    struct pukzarn_waited waited;
    uint32_t number = UNTOUCHED;
    uint64_t message = UNTOUCHED;
    char bytes[2] = {'x', 'y'};
    open_cells(&cells);
    memset(&regs, 0xab, sizeof regs);
    CHECK(pukzarn_tracee_getregs(root, &regs), -ESRCH);
    CHECK(pukzarn_tracee_setregs(root, &regs), -ESRCH);
    CHECK(pukzarn_tracee_map(root, 0x10000), -ESRCH);
    CHECK(pukzarn_tracee_read(root, 0x10000, bytes, 2), -ESRCH);
    CHECK(pukzarn_tracee_write(root, 0x10000, bytes, 2), -ESRCH);
    stops(root, PUKZARN_START, 0, 1);
    CHECK(pukzarn_tracee_getregs(root, &regs), -ESRCH);
    CHECK(pukzarn_tracer_waitid(&cells.tracers[0], P_ALL, 0, WEXITED, &waited), 1);
    CHECK(pukzarn_tracer_stop(other, 100, &number, &stop), -ESRCH);
    CHECK(pukzarn_tracer_message(other, 100, &message), -ESRCH);
    CHECK(pukzarn_tracer_getregs(other, 100, &regs), -ESRCH);
    CHECK(pukzarn_tracer_setregs(other, 100, &regs), -ESRCH);
    CHECK(pukzarn_tracer_read(other, 100, 0x10000, bytes, 2), -ESRCH);
    CHECK(pukzarn_tracer_write(other, 100, 0x10000, bytes, 2), -ESRCH);
    CHECK(pukzarn_tracer_syscall_info(other, 100, bytes, 2), -ESRCH);
    CHECK(pukzarn_tracer_getregs(&cells.tracers[0], 999, &regs), -ESRCH);
    CHECK(pukzarn_tracer_getregs(&cells.tracers[0], -100, &regs), -ESRCH);
    CHECK(regs.rip, 0xabababababababab);
    CHECK(number, UNTOUCHED);
    CHECK(message, UNTOUCHED);
    CHECK_STOP(stop, UNTOUCHED, UNTOUCHED);
    CHECK_BYTES(bytes, "xy", 2);
    close_cells(&cells);
}

/* A tracer that is closed restarts what it has claimed by PTRACE_CONT, without a signal. */
static void closes(void)
{
    struct cells cells;
    struct pukzarn_restart restart = restart_of(UNTOUCHED, UNTOUCHED);
    struct pukzarn_waited waited;
    open_cells(&cells);
    stops(&cells.tracees[ROOT], PUKZARN_SIGNAL, 15, 1);
    CHECK(pukzarn_tracer_waitid(&cells.tracers[0], P_ALL, 0, WEXITED, &waited), 1);
    CHECK(pukzarn_tracer_close(&cells.tracers[0]), 0);
    CHECK(pukzarn_tracer_close(&cells.tracers[0]), -EBADF);
    CHECK_LOOK(&cells.tracers[1], ROOT, PUKZARN_RUNNING, 0, 0);
    CHECK(pukzarn_tracee_take_up(&cells.tracees[ROOT], &restart), 0);
    CHECK(restart.kind, PUKZARN_CONT);
    CHECK(restart.signal, 0);
    /* A row that is taken up when its handle is closed runs for ever. */
    CHECK(pukzarn_tracee_close(&cells.tracees[ROOT]), 0);
    CHECK(pukzarn_tracee_close(&cells.tracees[ROOT]), -EBADF);
    CHECK_LOOK(&cells.tracers[1], ROOT, PUKZARN_RUNNING, 0, 0);
    CHECK(pukzarn_tracer_waitid(&cells.tracers[1], P_ALL, 0, WEXITED, &waited), 0);
    CHECK(pukzarn_tracee_close(&cells.tracees[THREAD]), 0);
    CHECK(pukzarn_tracee_close(&cells.tracees[CHILD]), 0);
    CHECK(pukzarn_tracer_close(&cells.tracers[1]), 0);
}

static void closed_tracees_are_refused(void)
{
    pukzarn_tracee tracee = PUKZARN_CLOSED;
    pukzarn_machine machine = PUKZARN_CLOSED;
    struct pukzarn_restart restart = restart_of(UNTOUCHED, UNTOUCHED);
    struct pukzarn_regs regs;
    struct pukzarn_stop stop = no_stop();
    uint32_t number = UNTOUCHED;
    char bytes[2] = {'x', 'y'};
    memset(&regs, 0, sizeof regs);
    CHECK(pukzarn_tracee_take_up(&tracee, &restart), -EBADF);
    CHECK(pukzarn_tracee_getregs(&tracee, &regs), -EBADF);
    CHECK(pukzarn_tracee_setregs(&tracee, &regs), -EBADF);
    CHECK(pukzarn_tracee_map(&tracee, 0x10000), -EBADF);
    CHECK(pukzarn_tracee_read(&tracee, 0, bytes, 2), -EBADF);
    CHECK(pukzarn_tracee_write(&tracee, 0, bytes, 2), -EBADF);
    CHECK(pukzarn_tracee_next(&tracee, &machine, &stop), -EBADF);
    CHECK(publish(&tracee, PUKZARN_START, 0, &number), -EBADF);
    CHECK(pukzarn_tracee_exit(&tracee, 0), -EBADF);
    CHECK(restart.kind, UNTOUCHED);
    CHECK(stop.kind, UNTOUCHED);
    CHECK(number, UNTOUCHED);
}

static void closed_tracers_are_refused(void)
{
    pukzarn_tracer tracer = PUKZARN_CLOSED;
    struct pukzarn_state state = no_state();
    struct pukzarn_waited waited = no_waited();
    struct pukzarn_regs regs;
    struct pukzarn_stop stop = no_stop();
    uint32_t number = UNTOUCHED;
    uint64_t message;
    char bytes[2] = {'x', 'y'};
    int status = 7;
    memset(&regs, 0, sizeof regs);
    CHECK(pukzarn_tracer_look(&tracer, 0, &state), -EBADF);
    CHECK(pukzarn_tracer_waitid(&tracer, P_ALL, 0, WEXITED, &waited), -EBADF);
    CHECK(pukzarn_tracer_wait_row(&tracer, 0, WEXITED, &waited), -EBADF);
    CHECK(pukzarn_tracer_waitpid(&tracer, -1, &status, 0), -EBADF);
    CHECK(pukzarn_tracer_stop(&tracer, 100, &number, &stop), -EBADF);
    CHECK(pukzarn_tracer_message(&tracer, 100, &message), -EBADF);
    CHECK(pukzarn_tracer_getregs(&tracer, 100, &regs), -EBADF);
    CHECK(pukzarn_tracer_setregs(&tracer, 100, &regs), -EBADF);
    CHECK(pukzarn_tracer_read(&tracer, 100, 0, bytes, 2), -EBADF);
    CHECK(pukzarn_tracer_write(&tracer, 100, 0, bytes, 2), -EBADF);
    CHECK(pukzarn_tracer_syscall_info(&tracer, 100, bytes, 2), -EBADF);
    CHECK(resume(&tracer, 100, PUKZARN_CONT, 0), -EBADF);
    CHECK(state.phase, UNTOUCHED);
    CHECK(waited.row, UNTOUCHED);
    CHECK(status, 7);
}

int main(void)
{
    opens_all_or_none();
    a_stop_and_its_restart();
    births();
    waits();
    waits_that_are_refused();
    waits_by_pid();
    the_record_goes_to_and_fro();
    records_that_are_not_here();
    closes();
    closed_tracees_are_refused();
    closed_tracers_are_refused();
    return checked("calls_cells");
}
