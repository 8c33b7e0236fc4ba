/* Each call of a case and of a machine once with an answer worked out by hand, and each refusal once. */
#include "check.h"
#include <sys/ptrace.h>

/* The case of docs/formats/case-files.md. */
static const char worked[] = "tracee 100 100 77 0\n"
                             "page 0x10000\n"
                             "data 0x10000 68690a\n"
                             "call write 1 0x10000 3 = 3\n"
                             "fork 101\n"
                             "exit 3\n"
                             "end\n"
                             "tracee 101 101 77 100\n"
                             "exit 0\n"
                             "end\n";

enum {
    PLAIN = PTRACE_O_TRACESYSGOOD | PTRACE_O_TRACEEXEC,
    FOLLOW = PLAIN | PTRACE_O_TRACEFORK | PTRACE_O_TRACECLONE
};

static void open_case(pukzarn_case *script, const char *text)
{
    uint32_t line = UNTOUCHED;
    char cause[16] = "none";
    CHECK(pukzarn_case_open(script, text, strlen(text), &line, cause, sizeof cause), 0);
    CHECK(line, UNTOUCHED);
    CHECK_TEXT(cause, "none");
}

/* A case, the machine of its first row, and a record for its stops. */
struct traced {
    pukzarn_case script;
    pukzarn_machine machine;
    pukzarn_record record;
};

static void trace(struct traced *traced, const char *text, uint32_t options)
{
    memset(traced, 0, sizeof *traced);
    open_case(&traced->script, text);
    CHECK(pukzarn_machine_open(&traced->machine, &traced->script, 0), 0);
    CHECK(pukzarn_machine_options(&traced->machine, options), 0);
    CHECK(pukzarn_record_open(&traced->record, 100), 0);
}

static void end(struct traced *traced)
{
    CHECK(pukzarn_machine_close(&traced->machine), 0);
    CHECK(pukzarn_record_close(&traced->record), 0);
    CHECK(pukzarn_case_close(&traced->script), 0);
}

/* The next stop after a restart is number `number`, and this one; also in the record. */
static void stops(struct traced *traced, uint32_t how, uint32_t signal, uint32_t number, uint32_t kind, uint32_t value)
{
    struct pukzarn_restart restart = restart_of(how, signal);
    struct pukzarn_stop stop = no_stop(), shown = no_stop();
    uint32_t shown_number = UNTOUCHED;
    CHECK(pukzarn_machine_next(&traced->machine, &restart, &traced->record, &stop), 0);
    CHECK_STOP(stop, kind, value);
    CHECK(pukzarn_record_stop(&traced->record, &shown_number, &shown), 0);
    CHECK(shown_number, number);
    CHECK_STOP(shown, kind, value);
}

static void dies(struct traced *traced, uint32_t how, uint32_t signal, uint32_t status)
{
    struct pukzarn_restart restart = restart_of(how, signal);
    for (int i = 0; i < 2; i++) { /* it is answered again */
        struct pukzarn_stop stop = no_stop();
        CHECK(pukzarn_machine_next(&traced->machine, &restart, &traced->record, &stop), 1);
        CHECK(stop.value, status);
    }
}

static struct pukzarn_regs registers(struct traced *traced)
{
    struct pukzarn_regs regs;
    CHECK(pukzarn_record_getregs(&traced->record, &regs), 0);
    return regs;
}

static void a_case_has_rows(void)
{
    pukzarn_case script = PUKZARN_CLOSED;
    pukzarn_machine machine = PUKZARN_CLOSED;
    struct pukzarn_row rows[2] = {row_of(UNTOUCHED, 0, 0, 0), row_of(UNTOUCHED, 0, 0, 0)};
    uint32_t line = UNTOUCHED;
    char cause[16] = "none";
    CHECK(pukzarn_case_close(&script), -EBADF);
    CHECK(pukzarn_case_rows(&script, rows, 2), -EBADF);
    CHECK(pukzarn_machine_open(&machine, &script, 0), -EBADF);
    open_case(&script, worked);
    CHECK(pukzarn_case_open(&script, worked, 0, &line, cause, sizeof cause), -EBUSY);
    CHECK(pukzarn_case_rows(&script, rows, 1), 2);
    CHECK(rows[1].tid, UNTOUCHED);
    CHECK(pukzarn_case_rows(&script, rows, 2), 2);
    CHECK(rows[0].tid, 100);
    CHECK(rows[0].parent, 0);
    CHECK(rows[1].tid, 101);
    CHECK(rows[1].tgid, 101);
    CHECK(rows[1].pgid, 77);
    CHECK(rows[1].parent, 100);
    CHECK(pukzarn_machine_open(&machine, &script, 2), -EINVAL);
    CHECK(pukzarn_machine_open(&machine, &script, 1), 0);
    CHECK(pukzarn_machine_open(&machine, &script, 1), -EBUSY);
    CHECK(pukzarn_case_close(&script), 0);
    CHECK(pukzarn_case_close(&script), -EBADF);
    CHECK(pukzarn_machine_close(&machine), 0); /* its machines stay */
    open_case(&script, "");
    CHECK(pukzarn_case_rows(&script, rows, 2), 0);
    CHECK(pukzarn_machine_open(&machine, &script, 0), -EINVAL);
    CHECK(pukzarn_case_close(&script), 0);
}

static const struct {
    const char *text;
    uint32_t line;
    const char *cause;
} refused[] = {
    {"tracee 100 100 77 0 \xff\nend\n", 1, "UnknownWord"},
    {"tracee 100 100 77 \xff\nend\n", 1, "BadNumber"},
    {"end\n", 1, "UnknownWord"},
    {"tracee 101 101 77 100\n", 1, "ParentLater"},
    {"tracee 100 100 77 0\ncall write 1 2 3 4 5 6 7 = 0\n", 2, "UnknownWord"},
    {"tracee 100 100 77 0\nsignal x\n", 2, "BadNumber"},
    {"tracee 100 100 77 0\nsignal 9\n", 2, "Signal"},
    {"tracee 100 100 77 0\ndata 0x10000 6\n", 2, "BadHex"},
    {"tracee 100 100 77 0\ndata 0x10000 61\n", 2, "Unmapped"},
    {"tracee 100 100 77 0\npage 0x10001\n", 2, "BadNumber"},
    {"tracee 100 100 77 0\nexit 0\n", 2, "NoEnd"},
    {"tracee 100 100 77 0\nend\ntracee 100 100 77 0\n", 3, "TwiceTracee"},
    {"tracee 100 101 77 0\n", 1, "GroupMismatch"},
    {"tracee 100 100 77 0\nfork 101\nend\n", 2, "NoSuchTracee"},
    {"tracee 100 100 77 0\nthread 101\nexec 0x10000\nend\ntracee 101 100 77 100\nend\n", 3, "SharedExec"},
    {"tracee 100 100 77 0\nfork 101\nfork 101\nend\ntracee 101 101 77 100\nend\n", 3, "ChildOrder"},
};

static void faulty_files_are_refused(void)
{
    for (size_t i = 0; i < sizeof refused / sizeof *refused; i++) {
        pukzarn_case script = PUKZARN_CLOSED;
        uint32_t line = UNTOUCHED;
        char cause[16] = "none", cut[4] = "zzz";
        size_t length = strlen(refused[i].text);
        CHECK(pukzarn_case_open(&script, refused[i].text, length, &line, cause, sizeof cause), -EINVAL);
        CHECK(line, refused[i].line);
        CHECK(strcmp(cause, refused[i].cause), 0);
        CHECK(pukzarn_case_open(&script, refused[i].text, length, &line, cut, 3), -EINVAL);
        CHECK(memcmp(cut, refused[i].cause, 2), 0);
        CHECK(cut[2], 0);
        cut[0] = 'z';
        CHECK(pukzarn_case_open(&script, refused[i].text, length, &line, cut, 0), -EINVAL);
        CHECK(cut[0], 'z');
        CHECK(pukzarn_case_close(&script), -EBADF);
    }
}

/* Its options are PTRACE_O_TRACESYSGOOD: calls stop, and a fork is not traced. */
static void a_new_machine(void)
{
    struct traced traced;
    memset(&traced, 0, sizeof traced);
    open_case(&traced.script, worked);
    CHECK(pukzarn_machine_open(&traced.machine, &traced.script, 0), 0);
    CHECK(pukzarn_record_open(&traced.record, 100), 0);
    stops(&traced, PUKZARN_CONT, 0, 1, PUKZARN_START, 0);
    for (uint32_t number = 2; number < 6; number += 2) { /* write and fork */
        stops(&traced, PUKZARN_SYSCALL, 0, number, PUKZARN_ENTER, 0);
        stops(&traced, PUKZARN_SYSCALL, 0, number + 1, PUKZARN_EXIT, 0);
    }
    dies(&traced, PUKZARN_CONT, 0, STATUS_EXITED_3);
    end(&traced);
}

/* The worked case, always restarted by PTRACE_SYSCALL. */
static void each_syscall_stop(void)
{
    struct traced traced;
    struct pukzarn_regs regs;
    char bytes[4] = "xxx";
    trace(&traced, worked, FOLLOW);
    stops(&traced, PUKZARN_SYSCALL, 0, 1, PUKZARN_START, 0);
    regs = registers(&traced);
    CHECK(regs.orig_rax, UINT64_MAX);
    CHECK(regs.rip, 0);
    CHECK(pukzarn_record_read(&traced.record, 0x10000, bytes, 3), 3);
    CHECK_BYTES(bytes, "hi\n", 3);
    stops(&traced, PUKZARN_SYSCALL, 0, 2, PUKZARN_ENTER, 0);
    regs = registers(&traced);
    CHECK(regs.orig_rax, 1);
    CHECK(regs.rdi, 1);
    CHECK(regs.rsi, 0x10000);
    CHECK(regs.rdx, 3);
    CHECK(regs.rax, -38); /* -ENOSYS */
    CHECK(regs.rip, 2);
    stops(&traced, PUKZARN_SYSCALL, 0, 3, PUKZARN_EXIT, 0);
    regs = registers(&traced);
    CHECK(regs.rax, 3);
    stops(&traced, PUKZARN_SYSCALL, 0, 4, PUKZARN_ENTER, 0);
    stops(&traced, PUKZARN_SYSCALL, 0, 5, PUKZARN_FORK, 101);
    regs = registers(&traced);
    CHECK(regs.orig_rax, 57);
    CHECK(regs.rip, 4);
    stops(&traced, PUKZARN_SYSCALL, 0, 6, PUKZARN_EXIT, 0);
    stops(&traced, PUKZARN_SYSCALL, 0, 7, PUKZARN_ENTER, 0);
    dies(&traced, PUKZARN_SYSCALL, 0, STATUS_EXITED_3);
    end(&traced);
}

/* With a filter that has write(2), which is call 1, restarted by PTRACE_SYSCALL only where the filter stops. */
static void a_filter(void)
{
    static const uint64_t write_alone[2] = {1 << 1, 0};
    struct traced traced;
    trace(&traced, worked, FOLLOW | PTRACE_O_TRACESECCOMP);
    CHECK(pukzarn_machine_filter(&traced.machine, write_alone, 0x1234), 0);
    stops(&traced, PUKZARN_CONT, 0, 1, PUKZARN_START, 0);
    stops(&traced, PUKZARN_CONT, 0, 2, PUKZARN_SECCOMP, 0x1234);
    stops(&traced, PUKZARN_SYSCALL, 0, 3, PUKZARN_EXIT, 0);
    stops(&traced, PUKZARN_CONT, 0, 4, PUKZARN_FORK, 101);
    dies(&traced, PUKZARN_CONT, 0, STATUS_EXITED_3);
    end(&traced);
}

/* The filter has exit(2), call 60, and call 64 is the first bit of the second word. */
static void calls_are_bits(void)
{
    static const uint64_t exit_alone[2] = {(uint64_t)1 << 60, 0}, others[2] = {~((uint64_t)1 << 60), UINT64_MAX};
    struct traced traced;
    trace(&traced, "tracee 100 100 77 0\nexit 259\nend\n", PLAIN | PTRACE_O_TRACESECCOMP);
    CHECK(pukzarn_machine_filter(&traced.machine, exit_alone, 0), 0);
    stops(&traced, PUKZARN_CONT, 0, 1, PUKZARN_START, 0);
    stops(&traced, PUKZARN_CONT, 0, 2, PUKZARN_SECCOMP, 0);
    dies(&traced, PUKZARN_CONT, 0, STATUS_EXITED_3); /* 259 modulo 256 */
    end(&traced);
    trace(&traced, "tracee 100 100 77 0\nexit 259\nend\n", PLAIN | PTRACE_O_TRACESECCOMP);
    CHECK(pukzarn_machine_filter(&traced.machine, others, 0), 0);
    stops(&traced, PUKZARN_CONT, 0, 1, PUKZARN_START, 0);
    dies(&traced, PUKZARN_CONT, 0, STATUS_EXITED_3);
    end(&traced);
}

/* PTRACE_O_TRACEEXIT adds a stop before the death. */
static void endings(void)
{
    static const char deadly[] = "tracee 100 100 100 0\nsignal 15 deadly\nexit 3\nend\n";
    struct traced traced;
    uint64_t message = 0;
    trace(&traced, deadly, PLAIN | PTRACE_O_TRACEEXIT);
    stops(&traced, PUKZARN_CONT, 0, 1, PUKZARN_START, 0);
    stops(&traced, PUKZARN_CONT, 0, 2, PUKZARN_SIGNAL, 15);
    stops(&traced, PUKZARN_CONT, 15, 3, PUKZARN_ENDING, STATUS_KILLED_TERM);
    CHECK(pukzarn_record_message(&traced.record, &message), 0);
    CHECK(message, 15);
    dies(&traced, PUKZARN_CONT, 0, STATUS_KILLED_TERM);
    end(&traced);
    /* The signal is suppressed, and the tracee goes on to its exit. */
    trace(&traced, deadly, PLAIN);
    stops(&traced, PUKZARN_CONT, 0, 1, PUKZARN_START, 0);
    stops(&traced, PUKZARN_CONT, 0, 2, PUKZARN_SIGNAL, 15);
    dies(&traced, PUKZARN_CONT, 0, STATUS_EXITED_3);
    end(&traced);
}

/* An exec puts the new image in: memory, rip and rsp. */
static void an_exec(void)
{
    static const char text[] = "tracee 100 100 77 0\npage 0x10000\ndata 0x10000 2f7800\nexec 0x10000\n"
                               "page 0x20000\nat 0x20000 0x20ff0\ncall getpid = 100\nend\n";
    struct traced traced;
    struct pukzarn_regs regs;
    char byte = 'x';
    trace(&traced, text, PLAIN);
    stops(&traced, PUKZARN_CONT, 0, 1, PUKZARN_START, 0);
    stops(&traced, PUKZARN_CONT, 0, 2, PUKZARN_EXEC, 100);
    regs = registers(&traced);
    CHECK(regs.orig_rax, 59);
    CHECK(regs.rip, 0x20000);
    CHECK(regs.rsp, 0x20ff0);
    CHECK(pukzarn_record_read(&traced.record, 0x10000, &byte, 1), 0);
    CHECK(pukzarn_record_read(&traced.record, 0x20000, &byte, 1), 1);
    CHECK(byte, 0);
    dies(&traced, PUKZARN_CONT, 0, 0); /* the script runs out */
    end(&traced);
}

/* A call that writes to what the record does not map: nothing changes, and with the memory it goes on. */
static void a_fault(void)
{
    static const char text[] = "tracee 100 100 77 0\npage 0x10000\ncall read 0 0x10000 1 = 1 fill 0x10000 61\nend\n";
    struct traced traced;
    pukzarn_record empty = PUKZARN_CLOSED;
    struct pukzarn_restart restart = restart_of(PUKZARN_SYSCALL, 0);
    struct pukzarn_stop stop = no_stop();
    uint32_t number = UNTOUCHED;
    char byte = 'x';
    trace(&traced, text, PLAIN);
    CHECK(pukzarn_record_open(&empty, 100), 0);
    stops(&traced, PUKZARN_SYSCALL, 0, 1, PUKZARN_START, 0);
    stops(&traced, PUKZARN_SYSCALL, 0, 2, PUKZARN_ENTER, 0);
    for (int i = 0; i < 2; i++)
        CHECK(pukzarn_machine_next(&traced.machine, &restart, &empty, &stop), -EFAULT);
    CHECK(stop.kind, UNTOUCHED);
    CHECK(pukzarn_record_stop(&empty, &number, &stop), 0);
    CHECK(number, 0);
    stops(&traced, PUKZARN_SYSCALL, 0, 3, PUKZARN_EXIT, 0);
    CHECK(pukzarn_record_read(&traced.record, 0x10000, &byte, 1), 1);
    CHECK(byte, 'a');
    CHECK(pukzarn_record_close(&empty), 0);
    end(&traced);
}

static void options_of_a_machine(void)
{
    static const uint32_t taken[] = {0x1, 0x1b, 0x9b, 0x41, 0x11};
    static const uint32_t wrong[] = {0, 0x1a, 0x3, 0x9, 0x5, 0x21, 0x101};
    struct traced traced;
    trace(&traced, worked, PTRACE_O_TRACESYSGOOD);
    for (size_t i = 0; i < sizeof taken / sizeof *taken; i++)
        CHECK(pukzarn_machine_options(&traced.machine, taken[i]), 0);
    CHECK(pukzarn_machine_options(&traced.machine, PLAIN), 0);
    for (size_t i = 0; i < sizeof wrong / sizeof *wrong; i++)
        CHECK(pukzarn_machine_options(&traced.machine, wrong[i]), -EINVAL);
    stops(&traced, PUKZARN_CONT, 0, 1, PUKZARN_START, 0);
    stops(&traced, PUKZARN_SYSCALL, 0, 2, PUKZARN_ENTER, 0);
    /* From the next stop on: write goes by, and so does the fork, which was not traced. */
    CHECK(pukzarn_machine_options(&traced.machine, PTRACE_O_TRACESYSGOOD), 0);
    stops(&traced, PUKZARN_SYSCALL, 0, 3, PUKZARN_EXIT, 0);
    stops(&traced, PUKZARN_SYSCALL, 0, 4, PUKZARN_ENTER, 0);
    stops(&traced, PUKZARN_SYSCALL, 0, 5, PUKZARN_EXIT, 0);
    CHECK(pukzarn_machine_options(&traced.machine, FOLLOW), -EINVAL);
    CHECK(pukzarn_machine_options(&traced.machine, PLAIN | PTRACE_O_TRACEEXIT), 0);
    stops(&traced, PUKZARN_CONT, 0, 6, PUKZARN_ENDING, STATUS_EXITED_3);
    dies(&traced, PUKZARN_CONT, 0, STATUS_EXITED_3);
    end(&traced);
}

static void steps_that_are_refused(void)
{
    static const uint64_t calls[2] = {0, 0};
    struct traced traced;
    struct pukzarn_restart restart = restart_of(2, 0);
    struct pukzarn_stop stop = no_stop();
    trace(&traced, worked, PLAIN);
    CHECK(pukzarn_machine_next(&traced.machine, &restart, &traced.record, &stop), -EINVAL);
    restart = restart_of(PUKZARN_CONT, 65);
    CHECK(pukzarn_machine_next(&traced.machine, &restart, &traced.record, &stop), -EIO);
    CHECK(pukzarn_record_close(&traced.record), 0);
    restart = restart_of(PUKZARN_CONT, 0);
    CHECK(pukzarn_machine_next(&traced.machine, &restart, &traced.record, &stop), -EBADF);
    CHECK(pukzarn_record_open(&traced.record, 100), 0);
    CHECK(pukzarn_machine_close(&traced.machine), 0);
    CHECK(pukzarn_machine_close(&traced.machine), -EBADF);
    CHECK(pukzarn_machine_next(&traced.machine, &restart, &traced.record, &stop), -EBADF);
    CHECK(pukzarn_machine_options(&traced.machine, PLAIN), -EBADF);
    CHECK(pukzarn_machine_filter(&traced.machine, calls, 0), -EBADF);
    CHECK(stop.kind, UNTOUCHED);
    CHECK(pukzarn_machine_open(&traced.machine, &traced.script, 0), 0);
    end(&traced);
}

/* Cells over the worked case, and the machine of its first row. */
struct cells {
    struct traced traced;
    pukzarn_tracee tracees[2];
    pukzarn_tracer tracer;
};

static void open_cells(struct cells *cells)
{
    struct pukzarn_row rows[2];
    uint32_t faulty;
    memset(cells, 0, sizeof *cells);
    trace(&cells->traced, worked, FOLLOW);
    CHECK(pukzarn_case_rows(&cells->traced.script, rows, 2), 2);
    CHECK(pukzarn_open(rows, 2, cells->tracees, 2, &cells->tracer, 1, &faulty), 0);
}

static void close_cells(struct cells *cells)
{
    CHECK(pukzarn_tracee_close(&cells->tracees[0]), 0);
    CHECK(pukzarn_tracee_close(&cells->tracees[1]), 0);
    CHECK(pukzarn_tracer_close(&cells->tracer), 0);
    end(&cells->traced);
}

/* The tracee is restarted, and the machine makes its next stop, which gets this number and this status. */
static void stops_of_tracee(struct cells *cells, uint32_t wanted_kind, uint32_t wanted_number, int wanted_status)
{
    struct pukzarn_restart restart = restart_of(PUKZARN_SYSCALL, 0);
    struct pukzarn_stop stop = no_stop();
    uint32_t number = UNTOUCHED;
    int status = 0;
    if (wanted_number > 1)
        CHECK(pukzarn_tracer_resume(&cells->tracer, 100, &restart), 0);
    CHECK(pukzarn_tracee_take_up(&cells->tracees[0], &restart), 0);
    CHECK(pukzarn_tracee_next(&cells->tracees[0], &cells->traced.machine, &stop), 0);
    CHECK_STOP(stop, wanted_kind, 0);
    CHECK(pukzarn_tracee_publish(&cells->tracees[0], &stop, &number), 0);
    CHECK(number, wanted_number);
    CHECK(pukzarn_tracer_waitpid(&cells->tracer, -1, &status, 0), 100);
    CHECK(status, wanted_status);
}

/* A script's stops in the hand of a tracee of the cells. */
static void a_tracee_runs_its_script(void)
{
    struct cells cells;
    struct pukzarn_stop stop = no_stop();
    struct pukzarn_restart restart = restart_of(PUKZARN_SYSCALL, 0);
    open_cells(&cells);
    CHECK(pukzarn_tracee_next(&cells.tracees[0], &cells.traced.machine, &stop), -ESRCH); /* not taken up */
    CHECK(pukzarn_tracee_next(&cells.tracees[1], &cells.traced.machine, &stop), -ESRCH);
    stops_of_tracee(&cells, PUKZARN_START, 1, STATUS_START);
    stops_of_tracee(&cells, PUKZARN_ENTER, 2, STATUS_SYSCALL);
    CHECK(pukzarn_tracer_resume(&cells.tracer, 100, &restart), 0);
    CHECK(pukzarn_tracee_take_up(&cells.tracees[0], &restart), 0);
    CHECK(pukzarn_machine_close(&cells.traced.machine), 0);
    CHECK(pukzarn_tracee_next(&cells.tracees[0], &cells.traced.machine, &stop), -EBADF);
    CHECK(stop.kind, UNTOUCHED);
    CHECK(pukzarn_machine_open(&cells.traced.machine, &cells.traced.script, 1), 0);
    close_cells(&cells);
}

/* The machine of another row: its stops are this tracee's, with the numbers of this tracee. */
static void a_tracee_runs_another_script(void)
{
    struct cells cells;
    open_cells(&cells);
    stops_of_tracee(&cells, PUKZARN_START, 1, STATUS_START);
    CHECK(pukzarn_machine_close(&cells.traced.machine), 0);
    CHECK(pukzarn_machine_open(&cells.traced.machine, &cells.traced.script, 1), 0);
    stops_of_tracee(&cells, PUKZARN_START, 2, STATUS_START);
    stops_of_tracee(&cells, PUKZARN_ENTER, 3, STATUS_SYSCALL);
    close_cells(&cells);
}

/* A machine that has loaded its image into another record finds no page in hand to store to: nothing changes, and with
 * the page the call is made. */
static void a_tracee_faults(void)
{
    static const char text[] = "tracee 100 100 77 0\npage 0x10000\ncall read 0 0x10000 1 = 1 fill 0x10000 61\nend\n";
    struct traced traced;
    pukzarn_tracee tracee = PUKZARN_CLOSED;
    pukzarn_tracer tracer = PUKZARN_CLOSED;
    struct pukzarn_row row = row_of(100, 100, 77, 0);
    struct pukzarn_restart restart;
    struct pukzarn_regs regs;
    struct pukzarn_stop stop = no_stop();
    uint32_t faulty;
    trace(&traced, text, PLAIN | PTRACE_O_TRACEEXIT);
    CHECK(pukzarn_open(&row, 1, &tracee, 1, &tracer, 1, &faulty), 0);
    stops(&traced, PUKZARN_CONT, 0, 1, PUKZARN_START, 0);
    CHECK(pukzarn_tracee_take_up(&tracee, &restart), 0);
    for (int i = 0; i < 2; i++)
        CHECK(pukzarn_tracee_next(&tracee, &traced.machine, &stop), -EFAULT);
    CHECK(stop.kind, UNTOUCHED);
    CHECK(pukzarn_tracee_getregs(&tracee, &regs), 0);
    CHECK(regs.rip, 0);
    CHECK(pukzarn_tracee_map(&tracee, 0x10000), 0);
    CHECK(pukzarn_tracee_next(&tracee, &traced.machine, &stop), 0);
    CHECK_STOP(stop, PUKZARN_ENDING, 0);
    CHECK(pukzarn_tracee_getregs(&tracee, &regs), 0);
    CHECK(regs.rip, 2);
    CHECK(regs.rsi, 0x10000);
    CHECK(regs.rax, 1);
    CHECK(pukzarn_tracee_close(&tracee), 0);
    CHECK(pukzarn_tracer_close(&tracer), 0);
    end(&traced);
}

int main(void)
{
    a_case_has_rows();
    faulty_files_are_refused();
    a_new_machine();
    each_syscall_stop();
    a_filter();
    calls_are_bits();
    endings();
    an_exec();
    a_fault();
    options_of_a_machine();
    steps_that_are_refused();
    a_tracee_runs_its_script();
    a_tracee_runs_another_script();
    a_tracee_faults();
    return checked("calls_scripts");
}
