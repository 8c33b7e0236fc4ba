/* pukzarn_checked.h: the calls of pukzarn.h behind tests that the proved library cannot make.
 *
 * Each type and each call has the name of pukzarn.h with pukzarn_checked_ in place of pukzarn_. A call is also
 *     -EFAULT  a pointer is NULL, also where the count beside it is 0
 *     -EBADF   the handle is a copy of an open one
 *     -EBUSY   another call is using the handle
 * and then nothing was called. A handle is PUKZARN_CHECKED_CLOSED at first. It keeps its own address while it is open,
 * so it cannot be moved. What is not found: a copy that is put back to the place of the handle that it was made of, a
 * handle whose memory was given back, and arguments that overlap.
 *
 * The tests cost some nanoseconds a call. They are for C and C++, and use the __atomic builtins of GCC and Clang.
 */
#ifndef PUKZARN_CHECKED_H
#define PUKZARN_CHECKED_H

#include <errno.h>
#include <pukzarn.h>

#ifdef __cplusplus
extern "C" {
#endif

/* Beside each handle: where it was opened, and whether a call is using it. */
struct pukzarn_check {
    const void *place;
    uint32_t busy;
};

typedef struct pukzarn_checked_record {
    pukzarn_record handle;
    struct pukzarn_check check;
} pukzarn_checked_record;

typedef struct pukzarn_checked_board {
    pukzarn_board handle;
    struct pukzarn_check check;
} pukzarn_checked_board;

typedef struct pukzarn_checked_tracee {
    pukzarn_tracee handle;
    struct pukzarn_check check;
} pukzarn_checked_tracee;

typedef struct pukzarn_checked_tracer {
    pukzarn_tracer handle;
    struct pukzarn_check check;
} pukzarn_checked_tracer;

typedef struct pukzarn_checked_case {
    pukzarn_case handle;
    struct pukzarn_check check;
} pukzarn_checked_case;

typedef struct pukzarn_checked_machine {
    pukzarn_machine handle;
    struct pukzarn_check check;
} pukzarn_checked_machine;

/* A closed handle of any of these types. */
#define PUKZARN_CHECKED_CLOSED { PUKZARN_CLOSED, { NULL, 0 } }

/* ---- The tests ---- */

/* Lets a call begin, or says why not. `live` is that of the handle, which is read only once the call has it. */
static inline int pukzarn_check_begin(struct pukzarn_check *check, const uint64_t *live)
{
    if (__atomic_exchange_n(&check->busy, 1, __ATOMIC_ACQUIRE) != 0)
        return -EBUSY;
    if (*live == 0 || check->place == check)
        return 0;
    __atomic_store_n(&check->busy, 0, __ATOMIC_RELEASE);
    return -EBADF;
}

/* Lets a call end: an open handle keeps its place. */
static inline void pukzarn_check_done(struct pukzarn_check *check, const uint64_t *live)
{
    check->place = *live != 0 ? check : NULL;
    __atomic_store_n(&check->busy, 0, __ATOMIC_RELEASE);
}

/* The same, and answers what the call has answered, once it has. */
static inline int pukzarn_check_end(struct pukzarn_check *check, const uint64_t *live, int answer)
{
    pukzarn_check_done(check, live);
    return answer;
}

static inline long pukzarn_check_end_long(struct pukzarn_check *check, const uint64_t *live, long answer)
{
    pukzarn_check_done(check, live);
    return answer;
}

/* The same for a handle of any type, which may be NULL. They are undefined at the end of this file. */
#define PUKZARN_BEGIN(it) ((it) == NULL ? -EFAULT : pukzarn_check_begin(&(it)->check, &(it)->handle.live))
#define PUKZARN_END(it, answer) pukzarn_check_end(&(it)->check, &(it)->handle.live, (answer))
#define PUKZARN_END_LONG(it, answer) pukzarn_check_end_long(&(it)->check, &(it)->handle.live, (answer))

/* ---- The library ---- */

static inline long pukzarn_checked_version(char *to, size_t room)
{
    return to == NULL ? -EFAULT : pukzarn_version(to, room);
}

/* ---- Records ---- */

static inline int pukzarn_checked_record_open(pukzarn_checked_record *record, uint32_t tid)
{
    int refused = PUKZARN_BEGIN(record);
    return refused != 0 ? refused : PUKZARN_END(record, pukzarn_record_open(&record->handle, tid));
}

static inline int pukzarn_checked_record_close(pukzarn_checked_record *record)
{
    int refused = PUKZARN_BEGIN(record);
    return refused != 0 ? refused : PUKZARN_END(record, pukzarn_record_close(&record->handle));
}

static inline int pukzarn_checked_record_set_stop(pukzarn_checked_record *record, uint32_t number,
                                                  const struct pukzarn_stop *stop)
{
    int refused = stop == NULL ? -EFAULT : PUKZARN_BEGIN(record);
    return refused != 0 ? refused : PUKZARN_END(record, pukzarn_record_set_stop(&record->handle, number, stop));
}

static inline int pukzarn_checked_record_stop(pukzarn_checked_record *record, uint32_t *number,
                                              struct pukzarn_stop *stop)
{
    int refused = number == NULL || stop == NULL ? -EFAULT : PUKZARN_BEGIN(record);
    return refused != 0 ? refused : PUKZARN_END(record, pukzarn_record_stop(&record->handle, number, stop));
}

static inline int pukzarn_checked_record_message(pukzarn_checked_record *record, uint64_t *message)
{
    int refused = message == NULL ? -EFAULT : PUKZARN_BEGIN(record);
    return refused != 0 ? refused : PUKZARN_END(record, pukzarn_record_message(&record->handle, message));
}

static inline int pukzarn_checked_record_getregs(pukzarn_checked_record *record, struct pukzarn_regs *regs)
{
    int refused = regs == NULL ? -EFAULT : PUKZARN_BEGIN(record);
    return refused != 0 ? refused : PUKZARN_END(record, pukzarn_record_getregs(&record->handle, regs));
}

static inline int pukzarn_checked_record_setregs(pukzarn_checked_record *record, const struct pukzarn_regs *regs)
{
    int refused = regs == NULL ? -EFAULT : PUKZARN_BEGIN(record);
    return refused != 0 ? refused : PUKZARN_END(record, pukzarn_record_setregs(&record->handle, regs));
}

static inline int pukzarn_checked_record_map(pukzarn_checked_record *record, uint64_t addr)
{
    int refused = PUKZARN_BEGIN(record);
    return refused != 0 ? refused : PUKZARN_END(record, pukzarn_record_map(&record->handle, addr));
}

static inline long pukzarn_checked_record_read(pukzarn_checked_record *record, uint64_t addr, void *to, size_t len)
{
    int refused = to == NULL ? -EFAULT : PUKZARN_BEGIN(record);
    return refused != 0 ? refused : PUKZARN_END_LONG(record, pukzarn_record_read(&record->handle, addr, to, len));
}

static inline int pukzarn_checked_record_write(pukzarn_checked_record *record, uint64_t addr, const void *from,
                                               size_t len)
{
    int refused = from == NULL ? -EFAULT : PUKZARN_BEGIN(record);
    return refused != 0 ? refused : PUKZARN_END(record, pukzarn_record_write(&record->handle, addr, from, len));
}

static inline long pukzarn_checked_record_syscall_info(pukzarn_checked_record *record, void *to, size_t len)
{
    int refused = to == NULL ? -EFAULT : PUKZARN_BEGIN(record);
    return refused != 0 ? refused : PUKZARN_END_LONG(record, pukzarn_record_syscall_info(&record->handle, to, len));
}

/* ---- The board of one thread ---- */

static inline int pukzarn_checked_board_open(pukzarn_checked_board *board, const struct pukzarn_row *rows,
                                             size_t row_count, uint32_t *faulty)
{
    int refused = rows == NULL || faulty == NULL ? -EFAULT : PUKZARN_BEGIN(board);
    return refused != 0 ? refused : PUKZARN_END(board, pukzarn_board_open(&board->handle, rows, row_count, faulty));
}

static inline int pukzarn_checked_board_close(pukzarn_checked_board *board)
{
    int refused = PUKZARN_BEGIN(board);
    return refused != 0 ? refused : PUKZARN_END(board, pukzarn_board_close(&board->handle));
}

static inline int pukzarn_checked_board_state(pukzarn_checked_board *board, uint32_t row, struct pukzarn_state *state)
{
    int refused = state == NULL ? -EFAULT : PUKZARN_BEGIN(board);
    return refused != 0 ? refused : PUKZARN_END(board, pukzarn_board_state(&board->handle, row, state));
}

static inline int pukzarn_checked_board_publish(pukzarn_checked_board *board, uint32_t row,
                                                const struct pukzarn_stop *stop, uint32_t *number)
{
    int refused = stop == NULL || number == NULL ? -EFAULT : PUKZARN_BEGIN(board);
    return refused != 0 ? refused : PUKZARN_END(board, pukzarn_board_publish(&board->handle, row, stop, number));
}

static inline int pukzarn_checked_board_claim(pukzarn_checked_board *board, uint32_t row, uint32_t tracer,
                                              struct pukzarn_got *got)
{
    int refused = got == NULL ? -EFAULT : PUKZARN_BEGIN(board);
    return refused != 0 ? refused : PUKZARN_END(board, pukzarn_board_claim(&board->handle, row, tracer, got));
}

static inline int pukzarn_checked_board_resume(pukzarn_checked_board *board, uint32_t row, uint32_t tracer,
                                               const struct pukzarn_restart *restart)
{
    int refused = restart == NULL ? -EFAULT : PUKZARN_BEGIN(board);
    return refused != 0 ? refused : PUKZARN_END(board, pukzarn_board_resume(&board->handle, row, tracer, restart));
}

static inline int pukzarn_checked_board_exit(pukzarn_checked_board *board, uint32_t row, uint32_t status)
{
    int refused = PUKZARN_BEGIN(board);
    return refused != 0 ? refused : PUKZARN_END(board, pukzarn_board_exit(&board->handle, row, status));
}

static inline int pukzarn_checked_board_waitable(pukzarn_checked_board *board, uint32_t idtype, int32_t id,
                                                 uint32_t options, uint32_t *rows, size_t room)
{
    int refused = rows == NULL ? -EFAULT : PUKZARN_BEGIN(board);
    if (refused != 0)
        return refused;
    return PUKZARN_END(board, pukzarn_board_waitable(&board->handle, idtype, id, options, rows, room));
}

/* ---- The cells that threads share ---- */

/* Begins a call of each of these handles: how many it has, all of them where none was refused. */
static inline size_t pukzarn_check_begin_all(pukzarn_checked_tracee *tracees, size_t tracee_count,
                                             pukzarn_checked_tracer *tracers, size_t tracer_count, int *refused)
{
    *refused = 0;
    for (size_t i = 0; i < tracee_count + tracer_count; i++) {
        *refused = i < tracee_count ? PUKZARN_BEGIN(tracees + i) : PUKZARN_BEGIN(tracers + (i - tracee_count));
        if (*refused != 0)
            return i;
    }
    return tracee_count + tracer_count;
}

/* Ends the call for the first `count` of these handles. */
static inline void pukzarn_check_end_all(pukzarn_checked_tracee *tracees, size_t tracee_count,
                                         pukzarn_checked_tracer *tracers, size_t count)
{
    for (size_t i = 0; i < count; i++) {
        if (i < tracee_count)
            PUKZARN_END(tracees + i, 0);
        else
            PUKZARN_END(tracers + (i - tracee_count), 0);
    }
}

/* Opens cells in plain handles, which stand for the checked ones while no other call can use these. */
static inline int pukzarn_check_open(const struct pukzarn_row *rows, size_t row_count, pukzarn_checked_tracee *tracees,
                                     size_t tracee_count, pukzarn_checked_tracer *tracers, size_t tracer_count,
                                     uint32_t *faulty)
{
    pukzarn_tracee plain_tracees[256];
    pukzarn_tracer plain_tracers[16];
    int answer;
    for (size_t i = 0; i < tracee_count; i++)
        plain_tracees[i] = tracees[i].handle;
    for (size_t i = 0; i < tracer_count; i++)
        plain_tracers[i] = tracers[i].handle;
    answer = pukzarn_open(rows, row_count, plain_tracees, tracee_count, plain_tracers, tracer_count, faulty);
    for (size_t i = 0; i < tracee_count; i++)
        tracees[i].handle = plain_tracees[i];
    for (size_t i = 0; i < tracer_count; i++)
        tracers[i].handle = plain_tracers[i];
    return answer;
}

static inline int pukzarn_checked_open(const struct pukzarn_row *rows, size_t row_count,
                                       pukzarn_checked_tracee *tracees, size_t tracee_count,
                                       pukzarn_checked_tracer *tracers, size_t tracer_count, uint32_t *faulty)
{
    size_t count;
    int answer;
    if (rows == NULL || tracees == NULL || tracers == NULL || faulty == NULL)
        return -EFAULT;
    if (tracee_count > 256 || tracer_count > 16)
        return -EINVAL;
    count = pukzarn_check_begin_all(tracees, tracee_count, tracers, tracer_count, &answer);
    if (answer == 0)
        answer = pukzarn_check_open(rows, row_count, tracees, tracee_count, tracers, tracer_count, faulty);
    pukzarn_check_end_all(tracees, tracee_count, tracers, count);
    return answer;
}

static inline int pukzarn_checked_tracee_take_up(pukzarn_checked_tracee *tracee, struct pukzarn_restart *restart)
{
    int refused = restart == NULL ? -EFAULT : PUKZARN_BEGIN(tracee);
    return refused != 0 ? refused : PUKZARN_END(tracee, pukzarn_tracee_take_up(&tracee->handle, restart));
}

static inline int pukzarn_checked_tracee_getregs(pukzarn_checked_tracee *tracee, struct pukzarn_regs *regs)
{
    int refused = regs == NULL ? -EFAULT : PUKZARN_BEGIN(tracee);
    return refused != 0 ? refused : PUKZARN_END(tracee, pukzarn_tracee_getregs(&tracee->handle, regs));
}

static inline int pukzarn_checked_tracee_setregs(pukzarn_checked_tracee *tracee, const struct pukzarn_regs *regs)
{
    int refused = regs == NULL ? -EFAULT : PUKZARN_BEGIN(tracee);
    return refused != 0 ? refused : PUKZARN_END(tracee, pukzarn_tracee_setregs(&tracee->handle, regs));
}

static inline int pukzarn_checked_tracee_map(pukzarn_checked_tracee *tracee, uint64_t addr)
{
    int refused = PUKZARN_BEGIN(tracee);
    return refused != 0 ? refused : PUKZARN_END(tracee, pukzarn_tracee_map(&tracee->handle, addr));
}

static inline long pukzarn_checked_tracee_read(pukzarn_checked_tracee *tracee, uint64_t addr, void *to, size_t len)
{
    int refused = to == NULL ? -EFAULT : PUKZARN_BEGIN(tracee);
    return refused != 0 ? refused : PUKZARN_END_LONG(tracee, pukzarn_tracee_read(&tracee->handle, addr, to, len));
}

static inline int pukzarn_checked_tracee_write(pukzarn_checked_tracee *tracee, uint64_t addr, const void *from,
                                               size_t len)
{
    int refused = from == NULL ? -EFAULT : PUKZARN_BEGIN(tracee);
    return refused != 0 ? refused : PUKZARN_END(tracee, pukzarn_tracee_write(&tracee->handle, addr, from, len));
}

static inline int pukzarn_checked_tracee_next(pukzarn_checked_tracee *tracee, pukzarn_checked_machine *machine,
                                              struct pukzarn_stop *stop)
{
    int answer = stop == NULL ? -EFAULT : PUKZARN_BEGIN(tracee);
    if (answer != 0)
        return answer;
    answer = PUKZARN_BEGIN(machine);
    if (answer == 0) {
        answer = pukzarn_tracee_next(&tracee->handle, &machine->handle, stop);
        PUKZARN_END(machine, 0);
    }
    return PUKZARN_END(tracee, answer);
}

static inline int pukzarn_checked_tracee_publish(pukzarn_checked_tracee *tracee, const struct pukzarn_stop *stop,
                                                 uint32_t *number)
{
    int refused = stop == NULL || number == NULL ? -EFAULT : PUKZARN_BEGIN(tracee);
    return refused != 0 ? refused : PUKZARN_END(tracee, pukzarn_tracee_publish(&tracee->handle, stop, number));
}

static inline int pukzarn_checked_tracee_exit(pukzarn_checked_tracee *tracee, uint32_t status)
{
    int refused = PUKZARN_BEGIN(tracee);
    return refused != 0 ? refused : PUKZARN_END(tracee, pukzarn_tracee_exit(&tracee->handle, status));
}

static inline int pukzarn_checked_tracee_close(pukzarn_checked_tracee *tracee)
{
    int refused = PUKZARN_BEGIN(tracee);
    return refused != 0 ? refused : PUKZARN_END(tracee, pukzarn_tracee_close(&tracee->handle));
}

static inline int pukzarn_checked_tracer_look(pukzarn_checked_tracer *tracer, uint32_t row,
                                              struct pukzarn_state *state)
{
    int refused = state == NULL ? -EFAULT : PUKZARN_BEGIN(tracer);
    return refused != 0 ? refused : PUKZARN_END(tracer, pukzarn_tracer_look(&tracer->handle, row, state));
}

static inline int pukzarn_checked_tracer_waitid(pukzarn_checked_tracer *tracer, uint32_t idtype, int32_t id,
                                                uint32_t options, struct pukzarn_waited *waited)
{
    int refused = waited == NULL ? -EFAULT : PUKZARN_BEGIN(tracer);
    if (refused != 0)
        return refused;
    return PUKZARN_END(tracer, pukzarn_tracer_waitid(&tracer->handle, idtype, id, options, waited));
}

static inline int pukzarn_checked_tracer_wait_row(pukzarn_checked_tracer *tracer, uint32_t row, uint32_t options,
                                                  struct pukzarn_waited *waited)
{
    int refused = waited == NULL ? -EFAULT : PUKZARN_BEGIN(tracer);
    if (refused != 0)
        return refused;
    return PUKZARN_END(tracer, pukzarn_tracer_wait_row(&tracer->handle, row, options, waited));
}

static inline int pukzarn_checked_tracer_waitpid(pukzarn_checked_tracer *tracer, int32_t pid, int *status,
                                                 uint32_t options)
{
    int refused = status == NULL ? -EFAULT : PUKZARN_BEGIN(tracer);
    if (refused != 0)
        return refused;
    return PUKZARN_END(tracer, pukzarn_tracer_waitpid(&tracer->handle, pid, status, options));
}

static inline int pukzarn_checked_tracer_stop(pukzarn_checked_tracer *tracer, int32_t pid, uint32_t *number,
                                              struct pukzarn_stop *stop)
{
    int refused = number == NULL || stop == NULL ? -EFAULT : PUKZARN_BEGIN(tracer);
    return refused != 0 ? refused : PUKZARN_END(tracer, pukzarn_tracer_stop(&tracer->handle, pid, number, stop));
}

static inline int pukzarn_checked_tracer_message(pukzarn_checked_tracer *tracer, int32_t pid, uint64_t *message)
{
    int refused = message == NULL ? -EFAULT : PUKZARN_BEGIN(tracer);
    return refused != 0 ? refused : PUKZARN_END(tracer, pukzarn_tracer_message(&tracer->handle, pid, message));
}

static inline int pukzarn_checked_tracer_getregs(pukzarn_checked_tracer *tracer, int32_t pid,
                                                 struct pukzarn_regs *regs)
{
    int refused = regs == NULL ? -EFAULT : PUKZARN_BEGIN(tracer);
    return refused != 0 ? refused : PUKZARN_END(tracer, pukzarn_tracer_getregs(&tracer->handle, pid, regs));
}

static inline int pukzarn_checked_tracer_setregs(pukzarn_checked_tracer *tracer, int32_t pid,
                                                 const struct pukzarn_regs *regs)
{
    int refused = regs == NULL ? -EFAULT : PUKZARN_BEGIN(tracer);
    return refused != 0 ? refused : PUKZARN_END(tracer, pukzarn_tracer_setregs(&tracer->handle, pid, regs));
}

static inline long pukzarn_checked_tracer_read(pukzarn_checked_tracer *tracer, int32_t pid, uint64_t addr, void *to,
                                               size_t len)
{
    int refused = to == NULL ? -EFAULT : PUKZARN_BEGIN(tracer);
    return refused != 0 ? refused : PUKZARN_END_LONG(tracer, pukzarn_tracer_read(&tracer->handle, pid, addr, to, len));
}

static inline int pukzarn_checked_tracer_write(pukzarn_checked_tracer *tracer, int32_t pid, uint64_t addr,
                                               const void *from, size_t len)
{
    int refused = from == NULL ? -EFAULT : PUKZARN_BEGIN(tracer);
    return refused != 0 ? refused : PUKZARN_END(tracer, pukzarn_tracer_write(&tracer->handle, pid, addr, from, len));
}

static inline long pukzarn_checked_tracer_syscall_info(pukzarn_checked_tracer *tracer, int32_t pid, void *to,
                                                       size_t len)
{
    int refused = to == NULL ? -EFAULT : PUKZARN_BEGIN(tracer);
    if (refused != 0)
        return refused;
    return PUKZARN_END_LONG(tracer, pukzarn_tracer_syscall_info(&tracer->handle, pid, to, len));
}

static inline int pukzarn_checked_tracer_resume(pukzarn_checked_tracer *tracer, int32_t pid,
                                                const struct pukzarn_restart *restart)
{
    int refused = restart == NULL ? -EFAULT : PUKZARN_BEGIN(tracer);
    return refused != 0 ? refused : PUKZARN_END(tracer, pukzarn_tracer_resume(&tracer->handle, pid, restart));
}

static inline int pukzarn_checked_tracer_close(pukzarn_checked_tracer *tracer)
{
    int refused = PUKZARN_BEGIN(tracer);
    return refused != 0 ? refused : PUKZARN_END(tracer, pukzarn_tracer_close(&tracer->handle));
}

/* ---- Scripts ---- */

static inline int pukzarn_checked_case_open(pukzarn_checked_case *script, const char *text, size_t len,
                                            uint32_t *line, char *cause, size_t room)
{
    int refused = text == NULL || line == NULL || cause == NULL ? -EFAULT : PUKZARN_BEGIN(script);
    if (refused != 0)
        return refused;
    return PUKZARN_END(script, pukzarn_case_open(&script->handle, text, len, line, cause, room));
}

static inline int pukzarn_checked_case_rows(pukzarn_checked_case *script, struct pukzarn_row *rows, size_t room)
{
    int refused = rows == NULL ? -EFAULT : PUKZARN_BEGIN(script);
    return refused != 0 ? refused : PUKZARN_END(script, pukzarn_case_rows(&script->handle, rows, room));
}

static inline int pukzarn_checked_case_close(pukzarn_checked_case *script)
{
    int refused = PUKZARN_BEGIN(script);
    return refused != 0 ? refused : PUKZARN_END(script, pukzarn_case_close(&script->handle));
}

static inline int pukzarn_checked_machine_open(pukzarn_checked_machine *machine, pukzarn_checked_case *script,
                                               uint32_t row)
{
    int answer = PUKZARN_BEGIN(machine);
    if (answer != 0)
        return answer;
    answer = PUKZARN_BEGIN(script);
    if (answer == 0) {
        answer = pukzarn_machine_open(&machine->handle, &script->handle, row);
        PUKZARN_END(script, 0);
    }
    return PUKZARN_END(machine, answer);
}

static inline int pukzarn_checked_machine_options(pukzarn_checked_machine *machine, uint32_t options)
{
    int refused = PUKZARN_BEGIN(machine);
    return refused != 0 ? refused : PUKZARN_END(machine, pukzarn_machine_options(&machine->handle, options));
}

static inline int pukzarn_checked_machine_filter(pukzarn_checked_machine *machine, const uint64_t calls[2],
                                                 uint16_t data)
{
    int refused = calls == NULL ? -EFAULT : PUKZARN_BEGIN(machine);
    return refused != 0 ? refused : PUKZARN_END(machine, pukzarn_machine_filter(&machine->handle, calls, data));
}

static inline int pukzarn_checked_machine_next(pukzarn_checked_machine *machine, const struct pukzarn_restart *restart,
                                               pukzarn_checked_record *record, struct pukzarn_stop *stop)
{
    int answer = restart == NULL || stop == NULL ? -EFAULT : PUKZARN_BEGIN(machine);
    if (answer != 0)
        return answer;
    answer = PUKZARN_BEGIN(record);
    if (answer == 0) {
        answer = pukzarn_machine_next(&machine->handle, restart, &record->handle, stop);
        PUKZARN_END(record, 0);
    }
    return PUKZARN_END(machine, answer);
}

static inline int pukzarn_checked_machine_close(pukzarn_checked_machine *machine)
{
    int refused = PUKZARN_BEGIN(machine);
    return refused != 0 ? refused : PUKZARN_END(machine, pukzarn_machine_close(&machine->handle));
}

#undef PUKZARN_BEGIN
#undef PUKZARN_END
#undef PUKZARN_END_LONG

#ifdef __cplusplus
}
#endif

#endif
