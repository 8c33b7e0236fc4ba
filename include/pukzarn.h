/* pukzarn.h: the stops of simulated tracees, for a tracer's own code.
 *
 * No real process is traced. A board has the stops of many tracees for one thread; cells have them for threads that
 * share them without locks; a machine is a tracee that does what a case file says. Stops, waits and restarts are those
 * of ptrace(2), waitid(2) and waitpid(2) on x86-64 Linux. docs/C.md has a tracer's loop, and says what is proved.
 *
 * ANSWERS
 *     A function answers 0 or a count, or a negative number of errno(3). What is refused has changed nothing: no
 *     handle, no row, and nothing at the pointers that it was given, unless its text says otherwise. Where several
 *     refusals apply, the first in the order of its text is answered. Errno itself is never set.
 *
 * HANDLES
 *     A handle is a struct of two words that the caller keeps, PUKZARN_CLOSED at first. An open fills it; a close
 *     closes it, and gives back what it held. A closed handle may be opened again. Every function answers -EBADF for a
 *     handle that is closed or holds something of another kind, and every open answers -EBUSY for one that is open.
 *     A handle that is never closed is a leak. It is never copied while it is open, and serves one call at a time.
 *
 * THREADS
 *     A handle may be used by another thread once a lock, a join or the start of a thread has ordered that. Threads
 *     that use different handles, also of the same cells, need no order. No function blocks, takes a lock, starts a
 *     thread, calls back, opens a file or prints. None may be called from a signal handler, or in the forked child of
 *     a process with threads.
 *
 * POINTERS
 *     No pointer is NULL, also where the count beside it is 0, and no two arguments overlap. pukzarn_checked.h tests
 *     for NULL, for copies, and for two calls at once.
 *
 * LIMITS
 *     256 rows, 16 tracers, stop numbers 1 to 16777215, ids 1 to 4194303, signals 1 to 64, 256 pages of 4096 bytes in
 *     a memory, 16777216 bytes in a case file.
 */
#ifndef PUKZARN_H
#define PUKZARN_H

#include <stddef.h>
#include <stdint.h>

#ifdef __cplusplus
extern "C" {
#endif

/* ---- What crosses in numbers ---- */

/* A tracee: its thread, its thread group, its process group, and the thread id of the tracee that creates it, 0 for a
 * root. A parent's row comes before those of its children, and siblings come in the order of their creation. */
struct pukzarn_row {
    uint32_t tid;
    uint32_t tgid;
    uint32_t pgid;
    uint32_t parent;
};

/* The kinds of stops, and what value says of each. A kind that says nothing has value 0. */
enum {
    PUKZARN_START = 0,   /* PTRACE_EVENT_STOP, the first stop of a scripted tracee */
    PUKZARN_ENTER = 1,   /* syscall-enter-stop */
    PUKZARN_EXIT = 2,    /* syscall-exit-stop */
    PUKZARN_SECCOMP = 3, /* PTRACE_EVENT_SECCOMP: the filter's data, 0 to 65535 */
    PUKZARN_FORK = 4,    /* PTRACE_EVENT_FORK: the child's thread id */
    PUKZARN_CLONE = 5,   /* PTRACE_EVENT_CLONE: the child's thread id */
    PUKZARN_EXEC = 6,    /* PTRACE_EVENT_EXEC: the former thread id */
    PUKZARN_SIGNAL = 7,  /* signal-delivery-stop: the signal, 1 to 64 */
    PUKZARN_ENDING = 8   /* PTRACE_EVENT_EXIT: the raw wait status of the death that comes */
};

struct pukzarn_stop {
    uint32_t kind;
    uint32_t value;
};

/* The kinds of restarts. */
enum {
    PUKZARN_CONT = 0,   /* PTRACE_CONT */
    PUKZARN_SYSCALL = 1 /* PTRACE_SYSCALL */
};

/* A restart: its kind, and the signal that the tracee is handed, 0 for none. */
struct pukzarn_restart {
    uint32_t kind;
    uint32_t signal;
};

/* What a row is doing. */
enum {
    PUKZARN_ABSENT = 0,  /* there is no such row */
    PUKZARN_UNBORN = 1,  /* its parent has not created it */
    PUKZARN_RUNNING = 2, /* it runs, or may be taken up */
    PUKZARN_STOPPED = 3, /* it is at a stop that nobody has claimed */
    PUKZARN_CLAIMED = 4, /* a tracer has claimed its stop */
    PUKZARN_DEAD = 5,    /* it has ended, and nobody has claimed its death */
    PUKZARN_REAPED = 6   /* its death was claimed */
};

/* The state of a row. What the phase has not is 0. */
struct pukzarn_state {
    uint32_t phase;
    uint32_t number; /* STOPPED, CLAIMED: of the stop; DEAD: of the last stop, 0 where there was none */
    uint32_t tracer; /* CLAIMED, on a board: who has claimed it */
    uint32_t status; /* STOPPED, DEAD: the raw wait status */
};

/* What a wait reports. */
struct pukzarn_waited {
    uint32_t row;
    uint32_t tid;
    uint32_t number; /* of the stop; of a death: of the last stop, 0 where there was none */
    uint32_t status; /* the raw wait status */
    uint32_t death;  /* 1: a death; 0: a stop */
};

/* What a claim on a board got; the fields are those of pukzarn_waited. */
struct pukzarn_got {
    uint32_t number;
    uint32_t status;
    uint32_t death;
};

/* The registers, byte for byte struct user_regs_struct of <sys/user.h>. */
struct pukzarn_regs {
    uint64_t r15, r14, r13, r12, rbp, rbx, r11, r10, r9, r8;
    uint64_t rax, rcx, rdx, rsi, rdi, orig_rax;
    uint64_t rip, cs, eflags, rsp, ss, fs_base, gs_base, ds, es, fs, gs;
};

/* ---- Handles: six types of one layout ---- */

typedef struct pukzarn_record {
    uint64_t live;
    void *at;
} pukzarn_record;

typedef struct pukzarn_board {
    uint64_t live;
    void *at;
} pukzarn_board;

typedef struct pukzarn_tracee {
    uint64_t live;
    void *at;
} pukzarn_tracee;

typedef struct pukzarn_tracer {
    uint64_t live;
    void *at;
} pukzarn_tracer;

typedef struct pukzarn_case {
    uint64_t live;
    void *at;
} pukzarn_case;

typedef struct pukzarn_machine {
    uint64_t live;
    void *at;
} pukzarn_machine;

/* A closed handle of any type. */
#define PUKZARN_CLOSED { 0, NULL }

/* ---- The library ---- */

/* Writes the library's version, as "1.2.3", cut to the room and ended by a zero byte; with room 0 nothing is written.
 * Answers the length of the whole text, without the zero byte. */
long pukzarn_version(char *to, size_t room);

/* ---- Records: the registers and the memory of a stop, beside a board or for a machine ---- */

/* Opens a record with number 0, stop START, registers 0 and no memory.
 * -EBUSY
 * -EINVAL  tid is not 1 to 4194303
 * -ENOMEM */
int pukzarn_record_open(pukzarn_record *record, uint32_t tid);

int pukzarn_record_close(pukzarn_record *record);

/* Makes the record that of another stop with a number, 0 to 16777215. Registers and memory stay.
 * -EINVAL  the number is above; the numbers are of no stop */
int pukzarn_record_set_stop(pukzarn_record *record, uint32_t number, const struct pukzarn_stop *stop);

/* The number of the record's stop, and the stop. */
int pukzarn_record_stop(pukzarn_record *record, uint32_t *number, struct pukzarn_stop *stop);

/* The event message (PTRACE_GETEVENTMSG) of the record's stop: the value of a SECCOMP, FORK, CLONE, EXEC or ENDING, and
 * 0 of any other stop. */
int pukzarn_record_message(pukzarn_record *record, uint64_t *message);

/* PTRACE_GETREGS, and PTRACE_SETREGS, which takes any values. */
int pukzarn_record_getregs(pukzarn_record *record, struct pukzarn_regs *regs);
int pukzarn_record_setregs(pukzarn_record *record, const struct pukzarn_regs *regs);

/* Maps the page of zeros at an address.
 * -EINVAL  the address is no multiple of 4096
 * -EEXIST  the page is mapped
 * -ENOSPC  256 pages are mapped
 * -ENOMEM */
int pukzarn_record_map(pukzarn_record *record, uint64_t addr);

/* Copies the bytes from an address on, up to the first that is not mapped, and answers how many they are: len, or
 * fewer. The rest of the buffer stays. */
long pukzarn_record_read(pukzarn_record *record, uint64_t addr, void *to, size_t len);

/* Writes bytes from an address on, all of them or none.
 * -EIO     one of their addresses is not mapped, or lies above 2^64 - 1 */
int pukzarn_record_write(pukzarn_record *record, uint64_t addr, const void *from, size_t len);

/* Writes what PTRACE_GET_SYSCALL_INFO reports of the record's stop, cut to len, and answers its full length: 80 at an
 * ENTER, 33 at an EXIT, 84 at a SECCOMP, and 24 at any other stop. */
long pukzarn_record_syscall_info(pukzarn_record *record, void *to, size_t len);

/* ---- The board of one thread ---- */

/* Opens a board over rows.
 * -EBUSY
 * -EINVAL  more than 256 rows; or a faulty row, and then *faulty is the place of the first one, from 0: an id out of
 *          range, the tid of an earlier row, a parent that is no earlier row, a root whose tgid is not its tid, a child
 *          whose tgid is neither its tid nor its parent's, or whose pgid is not its parent's. In all other cases
 *          *faulty stays.
 * -ENOMEM */
int pukzarn_board_open(pukzarn_board *board, const struct pukzarn_row *rows, size_t row_count, uint32_t *faulty);

int pukzarn_board_close(pukzarn_board *board);

/* The state of a row, ABSENT out of range. */
int pukzarn_board_state(pukzarn_board *board, uint32_t row, struct pukzarn_state *state);

/* A running row makes its next stop, and *number is its number, from 1.
 * -EINVAL  the numbers are of no stop; there is no such row
 * -ECHILD  the row is unborn
 * -EALREADY  it does not run
 * -EINVAL  a FORK or CLONE whose value is not the tid of the row's next child
 * -EOVERFLOW  it has made stop 16777215 */
int pukzarn_board_publish(pukzarn_board *board, uint32_t row, const struct pukzarn_stop *stop, uint32_t *number);

/* A tracer, 0 to 15, takes a row's stop, or its death, which is then reaped.
 * -EINVAL  there is no such row or tracer
 * -ECHILD  the row is unborn
 * -EAGAIN  it has neither a stop nor a death that nobody has claimed */
int pukzarn_board_claim(pukzarn_board *board, uint32_t row, uint32_t tracer, struct pukzarn_got *got);

/* A tracer restarts a row that it has claimed.
 * -EINVAL  there is no such kind of restart, row or tracer
 * -ECHILD  the row is unborn
 * -ESRCH   nobody has claimed it
 * -EPERM   another tracer has
 * -EIO     the signal is above 64 */
int pukzarn_board_resume(pukzarn_board *board, uint32_t row, uint32_t tracer, const struct pukzarn_restart *restart);

/* A running row ends, with the raw wait status of its death: an exit code of 0 to 255 in the second byte, or a signal
 * of 1 to 64, with 0x80 for a core dump.
 * -EINVAL  a status of no death; there is no such row
 * -ECHILD  the row is unborn
 * -EALREADY  it does not run
 * -EBUSY   it leads a thread group of which another row is alive */
int pukzarn_board_exit(pukzarn_board *board, uint32_t row, uint32_t status);

/* Which rows a waitid(2) of this idtype (P_ALL, P_PID, P_PGID), id and options may be answered now: answers how many,
 * and writes them in the order of the rows, as many as there is room for. 0: there is nothing to report yet.
 * -EINVAL  another idtype, an id of 0 or less with P_PID or P_PGID, bits of no option, neither WEXITED nor WSTOPPED, or
 *          WCONTINUED
 * -ECHILD  each row that is asked for is unborn or reaped, or dead and WEXITED is not given; also where there is none.
 *          For P_ALL and P_PGID that is for good; a row that is asked for by P_PID may still be created. */
int pukzarn_board_waitable(pukzarn_board *board, uint32_t idtype, int32_t id, uint32_t options, uint32_t *rows,
                           size_t room);

/* ---- The cells that threads share ---- */

/* Opens cells over rows, and all handles of them: the tracee of each row, in the order of the rows, and 1 to 16
 * tracers, numbered from 0. All are opened, or none.
 * -EBUSY   one of the handles is open
 * -EINVAL  as pukzarn_board_open; another number of tracees than of rows; no tracer, or more than 16
 * -ENOMEM */
int pukzarn_open(const struct pukzarn_row *rows, size_t row_count, pukzarn_tracee *tracees, size_t tracee_count,
                 pukzarn_tracer *tracers, size_t tracer_count, uint32_t *faulty);

/* The tracee's thread takes its row up: it gets the restart, and has in hand the record of its last stop as the tracer
 * left it. A row that has made no stop has the restart CONT without a signal, and the record of pukzarn_record_open.
 * -EAGAIN  the row is not born yet, or was not restarted yet
 * -ECHILD  nobody will create it any more
 * -EALREADY  it is taken up, or has ended */
int pukzarn_tracee_take_up(pukzarn_tracee *tracee, struct pukzarn_restart *restart);

/* The calls of a record on the one in hand. Each is first of all
 * -ESRCH   the row is not taken up */
int pukzarn_tracee_getregs(pukzarn_tracee *tracee, struct pukzarn_regs *regs);
int pukzarn_tracee_setregs(pukzarn_tracee *tracee, const struct pukzarn_regs *regs);
int pukzarn_tracee_map(pukzarn_tracee *tracee, uint64_t addr);
long pukzarn_tracee_read(pukzarn_tracee *tracee, uint64_t addr, void *to, size_t len);
int pukzarn_tracee_write(pukzarn_tracee *tracee, uint64_t addr, const void *from, size_t len);

/* Lets a machine run from the restart that was taken up to its next stop: its registers and memory are then those in
 * hand, and the stop is to be published by pukzarn_tracee_publish. The machine is that of the tracee's row; one of
 * another row runs that row's script for this tracee. Answers 0; or 1 where the script ends, and then stop->value is
 * the raw wait status of the death, for pukzarn_tracee_exit. It takes no memory.
 * -ESRCH   the row is not taken up
 * -EFAULT  the script stores to what is not mapped */
int pukzarn_tracee_next(pukzarn_tracee *tracee, pukzarn_machine *machine, struct pukzarn_stop *stop);

/* Publishes the row's next stop with the record in hand, for a tracer to claim, and *number is its number, from 1. The
 * record is then no more in hand.
 * -EINVAL  the numbers are of no stop
 * -EALREADY  the row is not taken up
 * -EINVAL  a FORK or CLONE whose value is not the tid of the row's next child
 * -EOVERFLOW  it has made stop 16777215 */
int pukzarn_tracee_publish(pukzarn_tracee *tracee, const struct pukzarn_stop *stop, uint32_t *number);

/* Ends the row, with the raw wait status of its death (pukzarn_board_exit).
 * -EINVAL  a status of no death
 * -EALREADY  the row is not taken up
 * -EBUSY   it leads a thread group of which another row is alive: it stays taken up, and may try again */
int pukzarn_tracee_exit(pukzarn_tracee *tracee, uint32_t status);

/* A row that is taken up then never stops again, and one that runs never ends. What it has published stays. */
int pukzarn_tracee_close(pukzarn_tracee *tracee);

/* The state of a row as one look shows it, ABSENT out of range. A look does not tell who has claimed a stop: tracer is
 * 0. */
int pukzarn_tracer_look(pukzarn_tracer *tracer, uint32_t row, struct pukzarn_state *state);

/* waitid(2), as with WNOHANG: reports the first row, in the order of the rows, that is asked for and has a stop, or a
 * death with WEXITED. Without WNOWAIT the stop is claimed by this tracer, and the death is reaped. A stop is reported
 * also without WSTOPPED. Answers 1; or 0 where there is nothing to report yet, and then nothing is written.
 * -EINVAL, -ECHILD  as pukzarn_board_waitable */
int pukzarn_tracer_waitid(pukzarn_tracer *tracer, uint32_t idtype, int32_t id, uint32_t options,
                          struct pukzarn_waited *waited);

/* The same for the tracee of one row.
 * -EINVAL  there is no such row; or as pukzarn_board_waitable */
int pukzarn_tracer_wait_row(pukzarn_tracer *tracer, uint32_t row, uint32_t options, struct pukzarn_waited *waited);

/* waitpid(2), as with WNOHANG: pid above 0 is that tracee, -1 any, below -1 the process group of the absolute value.
 * Answers the tracee's thread id, and *status is the raw wait status; or 0 where there is nothing to report yet, and
 * then nothing is written.
 * -EINVAL  another option than WNOHANG, WUNTRACED and __WALL; pid 0, or the least pid
 * -ECHILD  each row that is asked for is unborn or reaped; also where there is none */
int pukzarn_tracer_waitpid(pukzarn_tracer *tracer, int32_t pid, int *status, uint32_t options);

/* The calls of a record on the one of a tracee whose stop this tracer has claimed. What it sets there the tracee takes
 * up at the restart. Each is first of all
 * -ESRCH   this tracer has not claimed a stop of this tracee */
int pukzarn_tracer_stop(pukzarn_tracer *tracer, int32_t pid, uint32_t *number, struct pukzarn_stop *stop);
int pukzarn_tracer_message(pukzarn_tracer *tracer, int32_t pid, uint64_t *message);
int pukzarn_tracer_getregs(pukzarn_tracer *tracer, int32_t pid, struct pukzarn_regs *regs);
int pukzarn_tracer_setregs(pukzarn_tracer *tracer, int32_t pid, const struct pukzarn_regs *regs);
long pukzarn_tracer_read(pukzarn_tracer *tracer, int32_t pid, uint64_t addr, void *to, size_t len);
int pukzarn_tracer_write(pukzarn_tracer *tracer, int32_t pid, uint64_t addr, const void *from, size_t len);
long pukzarn_tracer_syscall_info(pukzarn_tracer *tracer, int32_t pid, void *to, size_t len);

/* Restarts a tracee whose stop this tracer has claimed (PTRACE_CONT, PTRACE_SYSCALL).
 * -EINVAL  there is no such kind of restart
 * -ESRCH   this tracer has not claimed a stop of this tracee
 * -EIO     the signal is above 64 */
int pukzarn_tracer_resume(pukzarn_tracer *tracer, int32_t pid, const struct pukzarn_restart *restart);

/* Restarts by PTRACE_CONT, without a signal, what the tracer has claimed: a signal that waits to be delivered there is
 * lost. */
int pukzarn_tracer_close(pukzarn_tracer *tracer);

/* ---- Scripts ---- */

/* Reads a case file (docs/formats/case-files.md).
 * -EBUSY
 * -EINVAL  the file is refused: *line is its first faulty line, from 1, and cause gets the cause, as "BadNumber", cut
 *          to the room and ended by a zero byte. In all other cases both stay.
 * -ENOMEM */
int pukzarn_case_open(pukzarn_case *script, const char *text, size_t len, uint32_t *line, char *cause, size_t room);

/* The rows of the case, in the order of its blocks: answers how many, and writes as many as there is room for. */
int pukzarn_case_rows(pukzarn_case *script, struct pukzarn_row *rows, size_t room);

/* Its machines stay open. */
int pukzarn_case_close(pukzarn_case *script);

/* Opens the machine of a row: options PTRACE_O_TRACESYSGOOD, and no filter.
 * -EBUSY
 * -EINVAL  there is no such row
 * -ENOMEM */
int pukzarn_machine_open(pukzarn_machine *machine, pukzarn_case *script, uint32_t row);

/* Sets the options (PTRACE_SETOPTIONS) from the next stop on.
 * -EINVAL  bits of no option; PTRACE_O_TRACESYSGOOD is missing; one of PTRACE_O_TRACEFORK and PTRACE_O_TRACECLONE
 *          without the other; PTRACE_O_TRACEVFORK or PTRACE_O_TRACEVFORKDONE; or PTRACE_O_TRACEFORK after a birth that
 *          was not traced, whose child can never be born */
int pukzarn_machine_options(pukzarn_machine *machine, uint32_t options);

/* Sets the filter (seccomp(2)) from the next stop on: the calls that stop at PTRACE_EVENT_SECCOMP where the options
 * have PTRACE_O_TRACESECCOMP, call n by bit n % 64 of calls[n / 64], and the data that the stop has. */
int pukzarn_machine_filter(pukzarn_machine *machine, const uint64_t calls[2], uint16_t data);

/* Lets the machine run from a restart to its next stop, and puts the tracee's id, the number, the stop, registers and
 * memory into the record. The first call ignores the restart, and answers START with the first memory and registers.
 * Answers 0; or 1 where the script ends, and then stop->value is the raw wait status of the death, again at each later
 * call. It takes no memory.
 * -EINVAL  there is no such kind of restart
 * -EIO     the signal is above 64
 * -EFAULT  the script stores to what is not mapped in the record */
int pukzarn_machine_next(pukzarn_machine *machine, const struct pukzarn_restart *restart, pukzarn_record *record,
                         struct pukzarn_stop *stop);

int pukzarn_machine_close(pukzarn_machine *machine);

#ifdef __cplusplus
}
#endif

#endif
