/* Each call of a record once with an answer worked out by hand, and each refusal once. */
#include "check.h"
#include <stddef.h>
#include <sys/user.h>

#define SAME_PLACE(field) CHECK(offsetof(struct pukzarn_regs, field), offsetof(struct user_regs_struct, field))

static void version(void)
{
    char text[16];
    memset(text, 'x', sizeof text);
    CHECK(pukzarn_version(text, sizeof text), (long)strlen(LIBRARY_VERSION));
    CHECK_TEXT(text, LIBRARY_VERSION);
    text[2] = 'x';
    CHECK(pukzarn_version(text, 2), (long)strlen(LIBRARY_VERSION));
    CHECK(text[0], LIBRARY_VERSION[0]);
    CHECK(text[1], 0);
    CHECK(text[2], 'x');
    text[0] = 'x';
    CHECK(pukzarn_version(text, 0), (long)strlen(LIBRARY_VERSION));
    CHECK(text[0], 'x');
}

static void opens_and_closes(void)
{
    pukzarn_record record = PUKZARN_CLOSED;
    CHECK(pukzarn_record_open(&record, 0), -EINVAL);
    CHECK(pukzarn_record_open(&record, 4194304), -EINVAL);
    CHECK(pukzarn_record_close(&record), -EBADF);
    CHECK(pukzarn_record_open(&record, 4194303), 0);
    CHECK(pukzarn_record_open(&record, 100), -EBUSY);
    CHECK(pukzarn_record_open(&record, 0), -EBUSY);
    CHECK(pukzarn_record_close(&record), 0);
    CHECK(pukzarn_record_close(&record), -EBADF);
    CHECK(pukzarn_record_open(&record, 100), 0);
    CHECK(pukzarn_record_close(&record), 0);
}

static void a_new_record_is_empty(void)
{
    pukzarn_record record = PUKZARN_CLOSED;
    struct pukzarn_regs regs, zeros;
    struct pukzarn_stop stop = no_stop();
    uint32_t number = UNTOUCHED;
    unsigned char byte = 9;
    CHECK(pukzarn_record_open(&record, 100), 0);
    CHECK(pukzarn_record_stop(&record, &number, &stop), 0);
    CHECK(number, 0);
    CHECK_STOP(stop, PUKZARN_START, 0);
    memset(&regs, 0xab, sizeof regs);
    memset(&zeros, 0, sizeof zeros);
    CHECK(pukzarn_record_getregs(&record, &regs), 0);
    CHECK_BYTES(&regs, &zeros, sizeof regs);
    CHECK(pukzarn_record_read(&record, 0, &byte, 1), 0);
    CHECK(byte, 9);
    CHECK(pukzarn_record_close(&record), 0);
}

/* The event message is the value of the stop, and 0 where PTRACE_GETEVENTMSG has none. */
static void stops_and_messages(void)
{
    static const struct {
        uint32_t number, kind, value;
        uint64_t message;
    } made[] = {
        {1, PUKZARN_START, 0, 0},           {2, PUKZARN_ENTER, 0, 0},
        {3, PUKZARN_EXIT, 0, 0},            {4, PUKZARN_SECCOMP, 65535, 65535},
        {5, PUKZARN_FORK, 101, 101},        {6, PUKZARN_CLONE, 102, 102},
        {7, PUKZARN_EXEC, 100, 100},        {8, PUKZARN_SIGNAL, 64, 0},
        {9, PUKZARN_ENDING, 0x300, 768},    {16777215, PUKZARN_ENDING, STATUS_CORE_SEGV, 139},
        {0, PUKZARN_START, 0, 0},
    };
    pukzarn_record record = PUKZARN_CLOSED;
    CHECK(pukzarn_record_open(&record, 100), 0);
    for (size_t i = 0; i < sizeof made / sizeof *made; i++) {
        struct pukzarn_stop stop = stop_of(made[i].kind, made[i].value), shown = no_stop();
        uint32_t number = UNTOUCHED;
        uint64_t message = UNTOUCHED;
        CHECK(pukzarn_record_set_stop(&record, made[i].number, &stop), 0);
        CHECK(pukzarn_record_stop(&record, &number, &shown), 0);
        CHECK(number, made[i].number);
        CHECK_STOP(shown, made[i].kind, made[i].value);
        CHECK(pukzarn_record_message(&record, &message), 0);
        CHECK(message, made[i].message);
    }
    CHECK(pukzarn_record_close(&record), 0);
}

static void numbers_of_no_stop_are_refused(void)
{
    static const struct {
        uint32_t number, kind, value;
    } refused[] = {
        {1, PUKZARN_START, 1},    {1, PUKZARN_ENTER, 1},      {1, PUKZARN_EXIT, 1},
        {1, PUKZARN_SIGNAL, 0},   {1, PUKZARN_SIGNAL, 65},    {1, PUKZARN_SECCOMP, 65536},
        {1, PUKZARN_ENDING, 127}, {1, PUKZARN_ENDING, 65},    {1, PUKZARN_ENDING, 0x10000},
        {1, 9, 0},                {16777216, PUKZARN_EXIT, 0}, {1, PUKZARN_ENDING, 0x101},
    };
    pukzarn_record record = PUKZARN_CLOSED;
    struct pukzarn_stop stop = stop_of(PUKZARN_FORK, 101);
    uint32_t number = UNTOUCHED;
    CHECK(pukzarn_record_open(&record, 100), 0);
    CHECK(pukzarn_record_set_stop(&record, 2, &stop), 0);
    for (size_t i = 0; i < sizeof refused / sizeof *refused; i++) {
        stop = stop_of(refused[i].kind, refused[i].value);
        CHECK(pukzarn_record_set_stop(&record, refused[i].number, &stop), -EINVAL);
    }
    CHECK(pukzarn_record_stop(&record, &number, &stop), 0);
    CHECK(number, 2);
    CHECK_STOP(stop, PUKZARN_FORK, 101);
    CHECK(pukzarn_record_close(&record), 0);
}

/* 27 words of 8 bytes, in the order of struct user_regs_struct. */
static void registers_cross_one_by_one(void)
{
    pukzarn_record record = PUKZARN_CLOSED;
    struct pukzarn_regs regs, got;
    uint64_t words[27];
    for (uint64_t i = 0; i < 27; i++)
        words[i] = 0x0123456789abcd00 + i;
    CHECK(sizeof regs, sizeof words);
    CHECK(sizeof regs, sizeof(struct user_regs_struct));
    SAME_PLACE(r15);
    SAME_PLACE(rbx);
    SAME_PLACE(rax);
    SAME_PLACE(orig_rax);
    SAME_PLACE(rip);
    SAME_PLACE(rsp);
    SAME_PLACE(gs);
    memcpy(&regs, words, sizeof regs);
    CHECK(regs.orig_rax, 0x0123456789abcd0f); /* word 15 */
    CHECK(pukzarn_record_open(&record, 100), 0);
    CHECK(pukzarn_record_setregs(&record, &regs), 0);
    memset(&got, 0, sizeof got);
    CHECK(pukzarn_record_getregs(&record, &got), 0);
    CHECK_BYTES(&got, words, sizeof words);
    CHECK(pukzarn_record_close(&record), 0);
}

static void pages_are_mapped(void)
{
    pukzarn_record record = PUKZARN_CLOSED;
    unsigned char bytes[2] = {9, 9};
    CHECK(pukzarn_record_open(&record, 100), 0);
    CHECK(pukzarn_record_map(&record, 0x10001), -EINVAL);
    CHECK(pukzarn_record_map(&record, 0x10000), 0);
    CHECK(pukzarn_record_map(&record, 0x10000), -EEXIST);
    CHECK(pukzarn_record_read(&record, 0x10fff, bytes, 2), 1);
    CHECK(bytes[0], 0);
    CHECK(bytes[1], 9);
    for (uint64_t page = 1; page < 256; page++)
        CHECK(pukzarn_record_map(&record, 0x10000 + page * 4096), 0);
    CHECK(pukzarn_record_map(&record, 0x10000 + 256 * 4096), -ENOSPC);
    CHECK(pukzarn_record_map(&record, 0x10000 + 255 * 4096), -EEXIST);
    CHECK(pukzarn_record_map(&record, 0x10001), -EINVAL);
    CHECK(pukzarn_record_close(&record), 0);
}

static void bytes_are_read_and_written(void)
{
    pukzarn_record record = PUKZARN_CLOSED;
    unsigned char got[8];
    CHECK(pukzarn_record_open(&record, 100), 0);
    CHECK(pukzarn_record_map(&record, 0x10000), 0);
    CHECK(pukzarn_record_map(&record, 0x11000), 0);
    CHECK(pukzarn_record_write(&record, 0x10ffe, "abcd", 4), 0);
    memset(got, 'x', sizeof got);
    CHECK(pukzarn_record_read(&record, 0x10ffd, got, 6), 6);
    CHECK_BYTES(got, "\0abcd\0xx", 8);
    /* Of three bytes the third is not mapped: all or none. */
    CHECK(pukzarn_record_write(&record, 0x11ffe, "efg", 3), -EIO);
    CHECK(pukzarn_record_write(&record, 0x11ffe, "ef", 2), 0);
    memset(got, 'x', sizeof got);
    CHECK(pukzarn_record_read(&record, 0x11ffe, got, 8), 2);
    CHECK_BYTES(got, "efxxxxxx", 8);
    CHECK(pukzarn_record_read(&record, 0x12000, got, 8), 0);
    CHECK(pukzarn_record_write(&record, 0xffff, "g", 1), -EIO);
    CHECK(pukzarn_record_read(&record, 0x50000, got, 0), 0);
    CHECK(pukzarn_record_write(&record, 0x50000, got, 0), 0);
    CHECK_BYTES(got, "efxxxxxx", 8);
    CHECK(pukzarn_record_close(&record), 0);
}

/* No address lies above 2^64 - 1: a run ends there, and does not go on at 0. */
static void the_address_space_ends(void)
{
    pukzarn_record record = PUKZARN_CLOSED;
    unsigned char got[4] = {'x', 'x', 'x', 'x'};
    CHECK(pukzarn_record_open(&record, 100), 0);
    CHECK(pukzarn_record_map(&record, 0), 0);
    CHECK(pukzarn_record_map(&record, 0xfffffffffffff000), 0);
    CHECK(pukzarn_record_write(&record, 0xfffffffffffffffe, "abc", 3), -EIO);
    CHECK(pukzarn_record_write(&record, 0xfffffffffffffffe, "ab", 2), 0);
    CHECK(pukzarn_record_read(&record, 0xfffffffffffffffe, got, 4), 2);
    CHECK_BYTES(got, "abxx", 4);
    CHECK(pukzarn_record_read(&record, 0, got, 1), 1);
    CHECK(got[0], 0);
    CHECK(pukzarn_record_close(&record), 0);
}

/* Opens a record of a call: write(3, 0x10000, 3) at 0x401002, stack 0x7ff000. */
static void open_at_a_call(pukzarn_record *record, uint32_t kind, uint32_t value, uint64_t rax)
{
    struct pukzarn_stop stop = stop_of(kind, value);
    struct pukzarn_regs regs;
    memset(&regs, 0, sizeof regs);
    regs.orig_rax = 1;
    regs.rdi = 3;
    regs.rsi = 0x10000;
    regs.rdx = 3;
    regs.r10 = 0x10a;
    regs.r8 = 0x108;
    regs.r9 = 0x109;
    regs.rax = rax;
    regs.rip = 0x401002;
    regs.rsp = 0x7ff000;
    CHECK(pukzarn_record_open(record, 100), 0);
    CHECK(pukzarn_record_setregs(record, &regs), 0);
    CHECK(pukzarn_record_set_stop(record, 2, &stop), 0);
}

/* struct ptrace_syscall_info, little-endian: op, arch 0xC000003E, rip, rsp; then number and six arguments, and the data
 * of the filter; or the result and whether it is an error. */
#define HEAD "\0\0\0\x3e\0\0\xc0\x02\x10\x40\0\0\0\0\0\0\xf0\x7f\0\0\0\0\0"
#define CALL \
    "\1\0\0\0\0\0\0\0\3\0\0\0\0\0\0\0\0\0\1\0\0\0\0\0\3\0\0\0\0\0\0\0\x0a\1\0\0\0\0\0\0\x08\1\0\0\0\0\0\0" \
    "\x09\1\0\0\0\0\0\0"

static void information_of_a_stop(uint32_t kind, uint32_t value, uint64_t rax, const char *wanted, long length)
{
    static const size_t rooms[] = {0, 1, 24, 32, 33, 80, 84, 90};
    pukzarn_record record = PUKZARN_CLOSED;
    open_at_a_call(&record, kind, value, rax);
    for (size_t i = 0; i < sizeof rooms / sizeof *rooms; i++) {
        unsigned char got[100], left[100];
        size_t written = rooms[i] < (size_t)length ? rooms[i] : (size_t)length;
        memset(got, 0xee, sizeof got);
        memset(left, 0xee, sizeof left);
        CHECK(pukzarn_record_syscall_info(&record, got, rooms[i]), length);
        CHECK_BYTES(got, wanted, written);
        CHECK_BYTES(got + written, left, sizeof got - written);
    }
    CHECK(pukzarn_record_close(&record), 0);
}

static void syscall_information(void)
{
    uint64_t none = (uint64_t)-38;
    information_of_a_stop(PUKZARN_START, 0, 0, "\0" HEAD, 24);
    information_of_a_stop(PUKZARN_SIGNAL, 15, 0, "\0" HEAD, 24);
    information_of_a_stop(PUKZARN_ENTER, 0, none, "\1" HEAD CALL, 80);
    information_of_a_stop(PUKZARN_EXIT, 0, 3, "\2" HEAD "\3\0\0\0\0\0\0\0\0", 33);
    /* -4095 to -1 are errors, and -4096 is a result. */
    information_of_a_stop(PUKZARN_EXIT, 0, (uint64_t)-1, "\2" HEAD "\xff\xff\xff\xff\xff\xff\xff\xff\1", 33);
    information_of_a_stop(PUKZARN_EXIT, 0, (uint64_t)-4095, "\2" HEAD "\1\xf0\xff\xff\xff\xff\xff\xff\1", 33);
    information_of_a_stop(PUKZARN_EXIT, 0, (uint64_t)-4096, "\2" HEAD "\0\xf0\xff\xff\xff\xff\xff\xff\0", 33);
    information_of_a_stop(PUKZARN_SECCOMP, 0x1234, none, "\3" HEAD CALL "\x34\x12\0\0", 84);
}

static void a_closed_record_is_refused(void)
{
    pukzarn_record record = PUKZARN_CLOSED;
    struct pukzarn_regs regs;
    struct pukzarn_stop stop = stop_of(PUKZARN_EXIT, 0), shown = no_stop();
    uint32_t number = UNTOUCHED;
    uint64_t message = UNTOUCHED;
    char bytes[2] = {'x', 'y'};
    memset(&regs, 0, sizeof regs);
    CHECK(pukzarn_record_close(&record), -EBADF);
    CHECK(pukzarn_record_set_stop(&record, 1, &stop), -EBADF);
    CHECK(pukzarn_record_stop(&record, &number, &shown), -EBADF);
    CHECK(pukzarn_record_message(&record, &message), -EBADF);
    CHECK(pukzarn_record_getregs(&record, &regs), -EBADF);
    CHECK(pukzarn_record_setregs(&record, &regs), -EBADF);
    CHECK(pukzarn_record_map(&record, 0x10000), -EBADF);
    CHECK(pukzarn_record_read(&record, 0x10000, bytes, 2), -EBADF);
    CHECK(pukzarn_record_write(&record, 0x10000, bytes, 2), -EBADF);
    CHECK(pukzarn_record_syscall_info(&record, bytes, 2), -EBADF);
    CHECK(number, UNTOUCHED);
    CHECK(message, UNTOUCHED);
    CHECK_STOP(shown, UNTOUCHED, UNTOUCHED);
    CHECK_BYTES(bytes, "xy", 2);
}

int main(void)
{
    version();
    opens_and_closes();
    a_new_record_is_empty();
    stops_and_messages();
    numbers_of_no_stop_are_refused();
    registers_cross_one_by_one();
    pages_are_mapped();
    bytes_are_read_and_written();
    the_address_space_ends();
    syscall_information();
    a_closed_record_is_refused();
    return checked("calls_record");
}
