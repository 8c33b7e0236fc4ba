/* Refused memory: malloc and realloc refuse their n-th call, for each n of the opens of a case until all succeed. Each
 * refused open is -ENOMEM and leaves its handles closed, what was open goes on, and at the end no block is left. Linked
 * with -Wl,--wrap=malloc,--wrap=realloc,--wrap=free, which turns the calls of the library (and of this program, but not
 * those of libc) to the functions below. */
#include "check.h"
#include <malloc.h>
#include <sys/ptrace.h>
#include <sys/wait.h>

static long calls, refused_call, blocks;
static int refused_growth;

#ifdef __cplusplus
extern "C" {
#endif
void *__real_malloc(size_t size);
void *__real_realloc(void *block, size_t size);
void __real_free(void *block);
void *__wrap_malloc(size_t size);
void *__wrap_realloc(void *block, size_t size);
void __wrap_free(void *block);
#ifdef __cplusplus
}
#endif

/* Whether this call, which asks for more than there is or not, is to be refused; none is while refused_call is 0. */
static int is_refused(int growth)
{
    calls++;
    if (calls != refused_call)
        return 0;
    refused_growth = growth;
    return 1;
}

void *__wrap_malloc(size_t size)
{
    void *block = is_refused(1) ? NULL : __real_malloc(size);
    blocks += block != NULL;
    return block;
}

void *__wrap_realloc(void *old, size_t size)
{
    int growth = old == NULL || size > malloc_usable_size(old);
    void *block = is_refused(growth) ? NULL : __real_realloc(old, size);
    blocks += block != NULL && old == NULL;
    return block;
}

void __wrap_free(void *block)
{
    blocks -= block != NULL;
    __real_free(block);
}

static const char text[] = "tracee 100 100 77 0\npage 0x10000\ndata 0x10000 68690a\ncall write 1 0x10000 3 = 3\n"
                           "call read 0 0x10000 2 = 2 fill 0x10000 7879\nfork 101\nexec 0x10000\npage 0x20000\n"
                           "at 0x20000 0\nexit 3\nend\ntracee 101 101 77 100\nexit 0\nend\n";

static const uint32_t options = PTRACE_O_TRACESYSGOOD | PTRACE_O_TRACEFORK | PTRACE_O_TRACECLONE;

struct world {
    pukzarn_case script;
    pukzarn_machine machines[2];
    pukzarn_tracee tracees[2];
    pukzarn_tracer tracers[2];
    pukzarn_board board;
    pukzarn_record record;
};

/* Whether a call was refused for want of memory. It may not have refused for another reason. */
static int is_short(int answer)
{
    CHECK(answer == 0 || answer == -ENOMEM, 1);
    return answer == -ENOMEM;
}

/* Opens the case and its machines: 0, or 1 where memory was refused. */
static int open_scripts(struct world *world)
{
    uint32_t line = UNTOUCHED;
    char cause[16] = "none";
    int answer = pukzarn_case_open(&world->script, text, strlen(text), &line, cause, sizeof cause);
    CHECK(line, UNTOUCHED);
    CHECK_TEXT(cause, "none");
    if (is_short(answer)) {
        CHECK(pukzarn_case_close(&world->script), -EBADF);
        return 1;
    }
    for (uint32_t row = 0; row < 2; row++) {
        if (is_short(pukzarn_machine_open(&world->machines[row], &world->script, row))) {
            CHECK(pukzarn_machine_close(&world->machines[row]), -EBADF);
            return 1;
        }
        CHECK(pukzarn_machine_options(&world->machines[row], options), 0);
    }
    return 0;
}

/* Opens cells, a board and a record over the rows of the case. */
static int open_rest(struct world *world)
{
    struct pukzarn_row rows[2];
    uint32_t faulty = UNTOUCHED;
    CHECK(pukzarn_case_rows(&world->script, rows, 2), 2);
    if (is_short(pukzarn_open(rows, 2, world->tracees, 2, world->tracers, 2, &faulty))) {
        for (int i = 0; i < 2; i++) {
            CHECK(pukzarn_tracee_close(&world->tracees[i]), -EBADF);
            CHECK(pukzarn_tracer_close(&world->tracers[i]), -EBADF);
        }
        return 1;
    }
    if (is_short(pukzarn_board_open(&world->board, rows, 2, &faulty))) {
        CHECK(pukzarn_board_close(&world->board), -EBADF);
        return 1;
    }
    CHECK(faulty, UNTOUCHED);
    if (is_short(pukzarn_record_open(&world->record, 100))) {
        CHECK(pukzarn_record_close(&world->record), -EBADF);
        return 1;
    }
    return 0;
}

/* Maps pages, one of which may be refused, and then is not there. */
static int map_pages(struct world *world)
{
    char byte;
    for (uint64_t page = 0; page < 3; page++) {
        int refused = is_short(pukzarn_record_map(&world->record, 0x10000 + 4096 * page));
        CHECK(pukzarn_record_read(&world->record, 0x10fff + 4096 * page, &byte, 1), !refused);
        if (refused)
            return 1;
    }
    return 0;
}

/* One turn of a tracee, if it can run. */
static void run(struct world *world, int row)
{
    struct pukzarn_restart restart;
    struct pukzarn_stop stop;
    uint32_t number;
    int answer = pukzarn_tracee_take_up(&world->tracees[row], &restart);
    if (answer != 0)
        return;
    answer = pukzarn_tracee_next(&world->tracees[row], &world->machines[row], &stop);
    if (answer == 0)
        CHECK(pukzarn_tracee_publish(&world->tracees[row], &stop, &number), 0);
    else {
        CHECK(answer, 1);
        CHECK(pukzarn_tracee_exit(&world->tracees[row], stop.value), 0);
    }
}

/* Traces all that was opened to its end, where every call of malloc would be refused: nothing but an open needs one.
 * Answers how many stops there were. */
static uint32_t trace(struct world *world)
{
    static const struct pukzarn_restart restart = {PUKZARN_SYSCALL, 0};
    uint32_t stops = 0;
    int status, pid;
    while ((pid = pukzarn_tracer_waitpid(&world->tracers[0], -1, &status, 0)) != -ECHILD) {
        for (int row = 0; pid == 0 && row < 2; row++)
            run(world, row);
        if (pid == 0 || !WIFSTOPPED(status))
            continue;
        stops++;
        CHECK(pukzarn_tracer_resume(&world->tracers[0], pid, &restart), 0);
    }
    return stops;
}

/* Closes what is open. */
static void close_all(struct world *world)
{
    pukzarn_record_close(&world->record);
    pukzarn_board_close(&world->board);
    for (int i = 0; i < 2; i++) {
        pukzarn_tracee_close(&world->tracees[i]);
        pukzarn_tracer_close(&world->tracers[i]);
        pukzarn_machine_close(&world->machines[i]);
    }
    pukzarn_case_close(&world->script);
}

/* Opens all with the n-th call refused: whether there were so many. Then opens again, and all serves as ever. */
static int try_with_refused(long n)
{
    struct world world;
    int was_short, was_refused;
    memset(&world, 0, sizeof world);
    calls = 0;
    refused_call = n;
    refused_growth = 0;
    was_short = open_scripts(&world) || open_rest(&world) || map_pages(&world);
    was_refused = calls >= n;
    CHECK(was_short && !was_refused, 0);
    CHECK(refused_growth && !was_short, 0); /* a block that stays too large does no harm */
    refused_call = 0;
    close_all(&world);
    CHECK(blocks, 0);
    memset(&world, 0, sizeof world);
    CHECK(open_scripts(&world) || open_rest(&world) || map_pages(&world), 0);
    calls = 0;
    /* START, 2 of write, 2 of read, 3 of fork, 2 of exec, ENTER of exit; START and ENTER of the child. */
    CHECK(trace(&world), 11 + 2);
    CHECK(calls, 0);
    close_all(&world);
    CHECK(blocks, 0);
    return was_refused;
}

int main(void)
{
    long n = 1;
    while (try_with_refused(n))
        n++;
    printf("refused_memory: %ld calls were refused\n", n - 1);
    CHECK(n > 10, 1);
    return checked("refused_memory");
}
