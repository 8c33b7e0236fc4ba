/* Each request of ptrace that the simulation has, once with an answer worked out by hand, and each errno once. */
#define _GNU_SOURCE
#include "check_model.h"
#include <elf.h>
#include <signal.h>
#include <stddef.h>
#include <sys/ptrace.h>
#include <sys/uio.h>
#include <sys/user.h>
#include <sys/wait.h>

#define USER(field) ((void *)offsetof(struct user, regs.field))

/* The next stop of tracee 100, after a restart by PTRACE_SYSCALL. */
static int next(void)
{
    int status = 0;
    CHECK(ptrace(PTRACE_SYSCALL, 100, 0, 0), 0);
    CHECK(waitpid(100, &status, __WALL), 100);
    return status;
}

/* The registers at the entry of write(1, 0x10000, 3). */
static void check_entry(const struct user_regs_struct *regs)
{
    CHECK(regs->orig_rax, 1);
    CHECK(regs->rax, -38); /* -ENOSYS */
    CHECK(regs->rdi, 1);
    CHECK(regs->rsi, 0x10000);
    CHECK(regs->rdx, 3);
    CHECK(regs->rip, 0x401002);
    CHECK(regs->rsp, 0x7ffff000);
}

static void registers_in_sets(void)
{
    struct user_regs_struct regs;
    struct iovec part = {&regs, sizeof regs + 8};
    memset(&regs, 0xab, sizeof regs);
    CHECK(ptrace(PTRACE_GETREGSET, 100, NT_PRSTATUS, &part), 0);
    CHECK(part.iov_len, sizeof regs);
    check_entry(&regs);
    memset(&regs, 0xab, sizeof regs);
    part.iov_len = offsetof(struct user_regs_struct, r13);
    CHECK(ptrace(PTRACE_GETREGSET, 100, NT_PRSTATUS, &part), 0);
    CHECK(part.iov_len, 16);
    CHECK(regs.r14, 0);
    CHECK(regs.r13, 0xabababababababab);
    part.iov_len = 12; /* no multiple of a register */
    CHECK_ERRNO(ptrace(PTRACE_GETREGSET, 100, NT_PRSTATUS, &part), EINVAL);
    regs.r15 = 15;
    part.iov_len = 8;
    CHECK(ptrace(PTRACE_SETREGSET, 100, NT_PRSTATUS, &part), 0);
    CHECK(ptrace(PTRACE_GETREGS, 100, 0, &regs), 0);
    check_entry(&regs);
    CHECK(regs.r15, 15);
    CHECK(regs.r14, 0);
}

static void registers_one_by_one(void)
{
    struct user_regs_struct regs;
    CHECK(ptrace(PTRACE_PEEKUSER, 100, USER(orig_rax), 0), 1);
    errno = EPERM;
    CHECK(ptrace(PTRACE_PEEKUSER, 100, USER(rax), 0), -38);
    CHECK(errno, 0);
    CHECK(ptrace(PTRACE_POKEUSER, 100, USER(rbx), 12), 0);
    CHECK(ptrace(PTRACE_PEEKUSER, 100, USER(rbx), 0), 12);
    CHECK_ERRNO(ptrace(PTRACE_PEEKUSER, 100, (void *)4, 0), EIO); /* no multiple of a register */
    CHECK_ERRNO(ptrace(PTRACE_POKEUSER, 100, (void *)4, 0), EIO);
    CHECK(ptrace(PTRACE_GETREGS, 100, 0, &regs), 0);
    check_entry(&regs);
    CHECK(regs.rbx, 12);
    regs.rbx = 13;
    CHECK(ptrace(PTRACE_SETREGS, 100, 0, &regs), 0);
    CHECK(ptrace(PTRACE_PEEKUSER, 100, USER(rbx), 0), 13);
}

static void memory(void)
{
    CHECK(ptrace(PTRACE_PEEKTEXT, 100, (void *)0x10000, 0), 0x0a6968);
    CHECK(ptrace(PTRACE_PEEKDATA, 100, (void *)0x10001, 0), 0x0a69);
    CHECK(ptrace(PTRACE_POKEDATA, 100, (void *)0x10003, 0x1122334455667788), 0);
    CHECK(ptrace(PTRACE_POKETEXT, 100, (void *)0x10ff8, -1L), 0);
    errno = EPERM;
    CHECK(ptrace(PTRACE_PEEKDATA, 100, (void *)0x10ff8, 0), -1);
    CHECK(errno, 0);
    CHECK(ptrace(PTRACE_PEEKDATA, 100, (void *)0x10000, 0), 0x44556677880a6968);
    CHECK_ERRNO(ptrace(PTRACE_PEEKDATA, 100, (void *)0x10ff9, 0), EIO); /* its last byte is not mapped */
    CHECK_ERRNO(ptrace(PTRACE_POKEDATA, 100, (void *)0x20000, 0), EIO);
}

static void syscall_info(void)
{
    struct __ptrace_syscall_info info;
    memset(&info, 0xab, sizeof info);
    CHECK(ptrace(PTRACE_GET_SYSCALL_INFO, 100, sizeof info, &info), 80);
    CHECK(info.op, PTRACE_SYSCALL_INFO_ENTRY);
    CHECK(info.arch, 0xc000003e); /* AUDIT_ARCH_X86_64 */
    CHECK(info.instruction_pointer, 0x401002);
    CHECK(info.stack_pointer, 0x7ffff000);
    CHECK(info.entry.nr, 1);
    CHECK(info.entry.args[1], 0x10000);
    CHECK(info.entry.args[2], 3);
    memset(&info, 0xab, sizeof info);
    CHECK(ptrace(PTRACE_GET_SYSCALL_INFO, 100, 24, &info), 80);
    CHECK(info.stack_pointer, 0x7ffff000);
    CHECK(info.entry.nr, 0xabababababababab);
}

static void at_the_exit(void)
{
    struct __ptrace_syscall_info info;
    CHECK(ptrace(PTRACE_GET_SYSCALL_INFO, 100, sizeof info, &info), 33);
    CHECK(info.op, PTRACE_SYSCALL_INFO_EXIT);
    CHECK(info.exit.rval, 3);
    CHECK(info.exit.is_error, 0);
    CHECK(ptrace(PTRACE_PEEKUSER, 100, USER(rax), 0), 3);
}

static void refusals(void)
{
    struct user_regs_struct regs;
    memset(&regs, 0xab, sizeof regs);
    CHECK_ERRNO(ptrace(PTRACE_GETREGS, 999, 0, &regs), ESRCH);
    CHECK_ERRNO(ptrace(PTRACE_PEEKDATA, 999, 0, 0), ESRCH);
    CHECK_ERRNO(ptrace(PTRACE_CONT, 999, 0, 0), ESRCH);
    CHECK_ERRNO(ptrace(PTRACE_SYSCALL, -100, 0, 0), ESRCH);
    CHECK_ERRNO(ptrace(PTRACE_CONT, 100, 0, 65), EIO);
    CHECK_ERRNO(ptrace(PTRACE_SETOPTIONS, 100, 0, 0x40000000), EINVAL);
    CHECK_ERRNO(ptrace(PTRACE_GETREGS, 100, 0, NULL), EFAULT);
    CHECK_ERRNO(ptrace(PTRACE_SETREGS, 100, 0, NULL), EFAULT);
    CHECK_ERRNO(ptrace(PTRACE_GETEVENTMSG, 100, 0, NULL), EFAULT);
    CHECK_ERRNO(ptrace(PTRACE_GETREGSET, 100, NT_PRSTATUS, NULL), EFAULT);
    /* Who is not stopped is refused before an argument is. */
    CHECK_ERRNO(ptrace(PTRACE_CONT, 999, 0, 65), ESRCH);
    CHECK_ERRNO(ptrace(PTRACE_SETOPTIONS, 999, 0, 0x40000000), ESRCH);
    CHECK_ERRNO(ptrace(PTRACE_SETREGS, 999, 0, NULL), ESRCH);
    CHECK(regs.rip, 0xabababababababab);
}

static void trace(void *unused)
{
    int status = 0;
    unsigned long message = 7;
    siginfo_t info;
    CHECK(unused == NULL, 1);
    CHECK(waitpid(-1, &status, __WALL), 100);
    CHECK(status, STATUS_START);
    CHECK(ptrace(PTRACE_SETOPTIONS, 100, 0, PTRACE_O_TRACESYSGOOD | PTRACE_O_TRACEEXIT), 0);
    CHECK(next(), STATUS_SYSCALL);
    memset(&info, 0, sizeof info);
    CHECK(ptrace(PTRACE_GETSIGINFO, 100, 0, &info), 0);
    CHECK(info.si_signo, SIGTRAP);
    CHECK(info.si_code, SIGTRAP | 0x80);
    registers_in_sets();
    registers_one_by_one();
    memory();
    syscall_info();
    refusals();
    CHECK(next(), STATUS_SYSCALL);
    at_the_exit();
    CHECK(next(), STATUS_SYSCALL); /* the entry of exit */
    CHECK(next(), STATUS_ENDING);
    CHECK(ptrace(PTRACE_GETEVENTMSG, 100, 0, &message), 0);
    CHECK(message, STATUS_EXITED_3);
    CHECK(next(), STATUS_EXITED_3);
    CHECK_ERRNO(ptrace(PTRACE_CONT, 100, 0, 0), ESRCH);
    CHECK_ERRNO(waitpid(-1, &status, __WALL), ECHILD);
}

static void test(pukzarn_sim *sim, void *unused)
{
    pukzarn_sim_case(sim, ONE_PROCESS);
    pukzarn_sim_tracer(sim, "main", trace, unused);
    CHECK(pukzarn_sim_run(sim), 0);
}

int main(void)
{
    CHECK(pukzarn_model("requests", test, NULL), 0);
    return checked("requests");
}
