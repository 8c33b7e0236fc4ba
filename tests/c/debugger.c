/* A debugger's loop: at the entry of each write it sets another length and other bytes, at its exit another result, and
 * the tracee runs on with what it left. On one thread, so that each step is known. */
#include "check.h"
#include <sys/ptrace.h>
#include <sys/wait.h>

/* A page's end lies within the bytes that are written. */
static const char text[] = "tracee 100 100 77 0\n"
                           "page 0x10000\n"
                           "page 0x11000\n"
                           "data 0x10ffe 68656c6c6f\n"
                           "call write 1 0x10ffe 5 = 5\n"
                           "call getpid = 100\n"
                           "call read 0 0x10ffe 2 = 2 fill 0x10ffe 7879\n"
                           "exit 0\n"
                           "end\n";

enum { BYTES = 0x10ffe, WRITE = 1, READ = 0 };

struct debugged {
    pukzarn_tracee tracee;
    pukzarn_tracer tracer;
    pukzarn_machine machine;
};

static void open_debugged(struct debugged *it)
{
    pukzarn_case script = PUKZARN_CLOSED;
    struct pukzarn_row row;
    uint32_t line = 0, faulty = 0;
    char cause[16] = "";
    memset(it, 0, sizeof *it);
    CHECK(pukzarn_case_open(&script, text, strlen(text), &line, cause, sizeof cause), 0);
    CHECK(pukzarn_case_rows(&script, &row, 1), 1);
    CHECK(pukzarn_machine_open(&it->machine, &script, 0), 0);
    CHECK(pukzarn_case_close(&script), 0);
    CHECK(pukzarn_open(&row, 1, &it->tracee, 1, &it->tracer, 1, &faulty), 0);
}

/* The tracee runs to its next stop or its end. */
static void run(struct debugged *it)
{
    struct pukzarn_restart restart;
    struct pukzarn_stop stop;
    uint32_t number;
    int answer;
    CHECK(pukzarn_tracee_take_up(&it->tracee, &restart), 0);
    answer = pukzarn_tracee_next(&it->tracee, &it->machine, &stop);
    if (answer == 0)
        CHECK(pukzarn_tracee_publish(&it->tracee, &stop, &number), 0);
    else {
        CHECK(answer, 1);
        CHECK(pukzarn_tracee_exit(&it->tracee, stop.value), 0);
    }
}

/* The entry of write(1, 0x10ffe, 5): it is to write two bytes, others than it wants. */
static void change_entry(pukzarn_tracer *tracer, struct pukzarn_regs *regs)
{
    char bytes[6] = "";
    CHECK(regs->rdx, 5);
    CHECK(pukzarn_tracer_read(tracer, 100, BYTES, bytes, 5), 5);
    CHECK_TEXT(bytes, "hello");
    CHECK(pukzarn_tracer_write(tracer, 100, BYTES, "HELLO", 5), 0);
    CHECK(pukzarn_tracer_write(tracer, 100, 0x11fff, "!?", 2), -EIO); /* none of them */
    regs->rdx = 2;
    regs->rbx = 7;
    CHECK(pukzarn_tracer_setregs(tracer, 100, regs), 0);
}

/* Its exit: what was set at the entry is there, and the result becomes another one. */
static void change_exit(pukzarn_tracer *tracer, struct pukzarn_regs *regs)
{
    char bytes[6] = "", last = 'x';
    CHECK(regs->rax, 5);
    CHECK(regs->rdx, 2);
    CHECK(regs->rbx, 7);
    CHECK(pukzarn_tracer_read(tracer, 100, BYTES, bytes, 5), 5);
    CHECK_TEXT(bytes, "HELLO");
    CHECK(pukzarn_tracer_read(tracer, 100, 0x11fff, &last, 1), 1);
    CHECK(last, 0);
    regs->rax = 2;
    CHECK(pukzarn_tracer_setregs(tracer, 100, regs), 0);
    CHECK(pukzarn_tracer_getregs(tracer, 100, regs), 0);
    CHECK(regs->rax, 2);
}

/* The script goes on as it is written: a call whose number was changed at its entry has its own result. */
static void change_number(pukzarn_tracer *tracer, struct pukzarn_regs *regs, uint32_t stop)
{
    if (stop == 4) { /* the entry */
        CHECK(regs->rax, -38);
        regs->orig_rax = WRITE;
        CHECK(pukzarn_tracer_setregs(tracer, 100, regs), 0);
    } else {
        CHECK(regs->orig_rax, WRITE);
        CHECK(regs->rax, 100);
    }
    CHECK(regs->rbx, 7); /* no step of a script sets it */
}

/* What read(2) has written lies over what the debugger wrote. */
static void see_read(pukzarn_tracer *tracer, struct pukzarn_regs *regs, uint32_t stop)
{
    char bytes[6] = "";
    CHECK(regs->orig_rax, READ);
    CHECK(pukzarn_tracer_read(tracer, 100, BYTES, bytes, 5), 5);
    if (stop == 6)
        CHECK_TEXT(bytes, "HELLO");
    else
        CHECK_TEXT(bytes, "xyLLO");
}

/* Stops: START 1, write 2 and 3, getpid 4 and 5, read 6 and 7, the entry of exit 8. */
static void serve(pukzarn_tracer *tracer, uint32_t stop)
{
    struct pukzarn_regs regs;
    CHECK(pukzarn_tracer_getregs(tracer, 100, &regs), 0);
    if (stop == 2)
        change_entry(tracer, &regs);
    else if (stop == 3)
        change_exit(tracer, &regs);
    else if (stop == 4 || stop == 5)
        change_number(tracer, &regs, stop);
    else if (stop == 6 || stop == 7)
        see_read(tracer, &regs, stop);
}

/* The loop: it waits for a stop, serves it, and restarts the tracee, until nobody is left. Answers how many stops. */
static uint32_t debug(struct debugged *it)
{
    static const struct pukzarn_restart restart = {PUKZARN_SYSCALL, 0};
    uint32_t stops = 0;
    for (;;) {
        int status = 0;
        int pid = pukzarn_tracer_waitpid(&it->tracer, -1, &status, __WALL);
        if (pid == -ECHILD)
            return stops;
        if (pid == 0) {
            run(it);
            continue;
        }
        CHECK(pid, 100);
        if (!WIFSTOPPED(status)) {
            CHECK(status, 0);
            continue;
        }
        stops++;
        CHECK(status, stops == 1 ? STATUS_START : STATUS_SYSCALL);
        serve(&it->tracer, stops);
        CHECK(pukzarn_tracer_resume(&it->tracer, pid, &restart), 0);
    }
}

int main(void)
{
    struct debugged it;
    open_debugged(&it);
    if (failed_checks == 0)
        CHECK(debug(&it), 8);
    CHECK(pukzarn_tracee_close(&it.tracee), 0);
    CHECK(pukzarn_tracer_close(&it.tracer), 0);
    CHECK(pukzarn_machine_close(&it.machine), 0);
    return checked("debugger");
}
