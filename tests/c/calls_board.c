/* Each call of the board once with an answer worked out by hand, and each refusal once. */
#include "check.h"
#include <sys/wait.h>

static int publish(pukzarn_board *board, uint32_t row, uint32_t kind, uint32_t value, uint32_t *number)
{
    struct pukzarn_stop stop = stop_of(kind, value);
    return pukzarn_board_publish(board, row, &stop, number);
}

static int resume(pukzarn_board *board, uint32_t row, uint32_t tracer, uint32_t kind, uint32_t signal)
{
    struct pukzarn_restart restart = restart_of(kind, signal);
    return pukzarn_board_resume(board, row, tracer, &restart);
}

/* The state of a row is this one. */
#define CHECK_ROW(board, row, phase, number, tracer, status) \
    do { \
        struct pukzarn_state state_ = no_state(); \
        CHECK(pukzarn_board_state((board), (row), &state_), 0); \
        CHECK_STATE(state_, phase, number, tracer, status); \
    } while (0)

/* A wait may be answered these rows: the first numbers of `wanted`, as many as `count`. */
static void check_waitable(int line, pukzarn_board *board, uint32_t idtype, int32_t id, uint32_t options, int count,
                           const uint32_t wanted[2])
{
    uint32_t rows[3] = {UNTOUCHED, UNTOUCHED, UNTOUCHED};
    check(__FILE__, line, "waitable", pukzarn_board_waitable(board, idtype, id, options, rows, 3), count);
    for (int i = 0; i < 3; i++)
        check(__FILE__, line, "row", rows[i], i < count ? wanted[i] : UNTOUCHED);
}

static const uint32_t none[2] = {0, 0}, zero[2] = {0, 0}, one[2] = {1, 0}, zero_and_two[2] = {0, 2}, two[2] = {2, 0};

#define WAITABLE(board, idtype, id, options, count, wanted) \
    check_waitable(__LINE__, (board), (idtype), (id), (options), (count), (wanted))

static void opens_and_closes(void)
{
    struct pukzarn_row rows[2] = {row_of(100, 100, 77, 0), row_of(101, 100, 77, 100)};
    pukzarn_board board = PUKZARN_CLOSED;
    uint32_t faulty = UNTOUCHED;
    CHECK(pukzarn_board_close(&board), -EBADF);
    CHECK(pukzarn_board_open(&board, rows, 2, &faulty), 0);
    CHECK(pukzarn_board_open(&board, rows, 2, &faulty), -EBUSY);
    CHECK_ROW(&board, 1, PUKZARN_UNBORN, 0, 0, 0);
    CHECK(pukzarn_board_close(&board), 0);
    CHECK(pukzarn_board_close(&board), -EBADF);
    /* An empty roster has nobody to wait for. */
    CHECK(pukzarn_board_open(&board, rows, 0, &faulty), 0);
    CHECK_ROW(&board, 0, PUKZARN_ABSENT, 0, 0, 0);
    WAITABLE(&board, P_ALL, 0, WEXITED, -ECHILD, none);
    CHECK(pukzarn_board_close(&board), 0);
    CHECK(faulty, UNTOUCHED);
}

static void refuse_rows(struct pukzarn_row first, struct pukzarn_row second, uint32_t wanted)
{
    struct pukzarn_row rows[2];
    pukzarn_board board = PUKZARN_CLOSED;
    uint32_t faulty = UNTOUCHED;
    rows[0] = first;
    rows[1] = second;
    CHECK(pukzarn_board_open(&board, rows, 2, &faulty), -EINVAL);
    CHECK(faulty, wanted);
    CHECK(pukzarn_board_close(&board), -EBADF);
}

static void faulty_rows_are_named(void)
{
    struct pukzarn_row root = row_of(100, 100, 77, 0), many[257];
    pukzarn_board board = PUKZARN_CLOSED;
    uint32_t faulty = UNTOUCHED;
    refuse_rows(root, row_of(0, 100, 77, 100), 1);
    refuse_rows(root, row_of(4194304, 4194304, 77, 100), 1);
    refuse_rows(root, row_of(101, 0, 77, 100), 1);
    refuse_rows(root, row_of(101, 100, 0, 100), 1);
    refuse_rows(root, row_of(101, 100, 77, 4194304), 1);
    refuse_rows(root, row_of(100, 100, 77, 0), 1); /* the tid of row 0 */
    refuse_rows(row_of(101, 101, 77, 100), root, 0); /* the parent is no earlier row */
    refuse_rows(root, row_of(101, 100, 77, 0), 1);   /* a root of another's group */
    refuse_rows(root, row_of(101, 102, 77, 100), 1); /* neither the child's nor the parent's group */
    refuse_rows(root, row_of(101, 101, 78, 100), 1); /* another process group than the parent's */
    for (uint32_t i = 0; i < 257; i++)
        many[i] = row_of(1 + i, 1 + i, 1, 0);
    CHECK(pukzarn_board_open(&board, many, 257, &faulty), -EINVAL);
    CHECK(faulty, UNTOUCHED);
    CHECK(pukzarn_board_open(&board, many, 256, &faulty), 0);
    CHECK_ROW(&board, 255, PUKZARN_RUNNING, 0, 0, 0);
    CHECK_ROW(&board, 256, PUKZARN_ABSENT, 0, 0, 0);
    CHECK(pukzarn_board_close(&board), 0);
}

/* A root and a thread of its group, which holds back its exit. */
static void a_leader_and_its_thread(void)
{
    struct pukzarn_row rows[2] = {row_of(100, 100, 77, 0), row_of(101, 100, 77, 100)};
    pukzarn_board board = PUKZARN_CLOSED;
    struct pukzarn_got got = no_got();
    uint32_t faulty, number = UNTOUCHED;
    CHECK(pukzarn_board_open(&board, rows, 2, &faulty), 0);
    CHECK(publish(&board, 1, PUKZARN_START, 0, &number), -ECHILD);
    CHECK(pukzarn_board_claim(&board, 1, 0, &got), -ECHILD);
    CHECK(resume(&board, 1, 0, PUKZARN_CONT, 0), -ECHILD);
    CHECK(pukzarn_board_exit(&board, 1, 0), -ECHILD);
    CHECK(number, UNTOUCHED);
    CHECK(publish(&board, 0, PUKZARN_START, 0, &number), 0);
    CHECK(number, 1);
    CHECK_ROW(&board, 0, PUKZARN_STOPPED, 1, 0, STATUS_START);
    CHECK(pukzarn_board_claim(&board, 0, 3, &got), 0);
    CHECK(got.number, 1);
    CHECK(got.status, STATUS_START);
    CHECK(got.death, 0);
    CHECK_ROW(&board, 0, PUKZARN_CLAIMED, 1, 3, 0);
    CHECK(resume(&board, 0, 3, PUKZARN_SYSCALL, 0), 0);
    CHECK(publish(&board, 0, PUKZARN_CLONE, 101, &number), 0);
    CHECK(number, 2);
    CHECK_ROW(&board, 1, PUKZARN_RUNNING, 0, 0, 0);
    CHECK(pukzarn_board_claim(&board, 0, 0, &got), 0);
    CHECK(got.status, STATUS_CLONE);
    CHECK(resume(&board, 0, 0, PUKZARN_CONT, 64), 0);
    CHECK(pukzarn_board_exit(&board, 0, STATUS_EXITED_3), -EBUSY);
    CHECK_ROW(&board, 0, PUKZARN_RUNNING, 0, 0, 0);
    CHECK(pukzarn_board_exit(&board, 1, STATUS_KILLED_TERM), 0);
    CHECK_ROW(&board, 1, PUKZARN_DEAD, 0, 0, STATUS_KILLED_TERM);
    CHECK(pukzarn_board_exit(&board, 0, STATUS_EXITED_3), 0);
    CHECK(pukzarn_board_claim(&board, 0, 2, &got), 0);
    CHECK(got.number, 2);
    CHECK(got.status, STATUS_EXITED_3);
    CHECK(got.death, 1);
    CHECK_ROW(&board, 0, PUKZARN_REAPED, 0, 0, 0);
    CHECK(pukzarn_board_claim(&board, 0, 0, &got), -EAGAIN);
    CHECK(pukzarn_board_close(&board), 0);
}

/* A root and two children, for refusals, each of which leaves the board as it was. */
static void open_family(pukzarn_board *board)
{
    struct pukzarn_row rows[3] = {row_of(100, 100, 77, 0), row_of(101, 101, 77, 100), row_of(102, 102, 77, 100)};
    uint32_t faulty;
    CHECK(pukzarn_board_open(board, rows, 3, &faulty), 0);
}

static void calls_of_a_running_row_are_refused(void)
{
    pukzarn_board board = PUKZARN_CLOSED;
    struct pukzarn_got got = no_got();
    uint32_t number = UNTOUCHED;
    open_family(&board);
    CHECK(publish(&board, 3, PUKZARN_START, 0, &number), -EINVAL);
    CHECK(publish(&board, 0, 9, 0, &number), -EINVAL);
    CHECK(publish(&board, 1, PUKZARN_SIGNAL, 65, &number), -EINVAL); /* before -ECHILD */
    CHECK(publish(&board, 0, PUKZARN_FORK, 102, &number), -EINVAL);  /* 101 is the next child */
    CHECK(pukzarn_board_claim(&board, 0, 0, &got), -EAGAIN);
    CHECK(pukzarn_board_claim(&board, 3, 0, &got), -EINVAL);
    CHECK(pukzarn_board_claim(&board, 0, 16, &got), -EINVAL);
    CHECK(resume(&board, 3, 0, PUKZARN_CONT, 0), -EINVAL);
    CHECK(resume(&board, 0, 16, PUKZARN_CONT, 0), -EINVAL);
    CHECK(resume(&board, 0, 0, 2, 0), -EINVAL);
    CHECK(resume(&board, 0, 0, PUKZARN_CONT, 65), -ESRCH); /* before -EIO */
    CHECK(pukzarn_board_exit(&board, 3, 0), -EINVAL);
    CHECK(pukzarn_board_exit(&board, 0, 0x7f), -EINVAL);
    CHECK(pukzarn_board_exit(&board, 0, 65), -EINVAL);
    CHECK(number, UNTOUCHED);
    CHECK(got.number, UNTOUCHED);
    CHECK_ROW(&board, 0, PUKZARN_RUNNING, 0, 0, 0);
    CHECK(pukzarn_board_close(&board), 0);
}

static void calls_of_a_stopped_row_are_refused(void)
{
    pukzarn_board board = PUKZARN_CLOSED;
    struct pukzarn_got got = no_got();
    uint32_t number = UNTOUCHED;
    open_family(&board);
    CHECK(publish(&board, 0, PUKZARN_FORK, 101, &number), 0);
    CHECK(number, 1);
    number = UNTOUCHED;
    CHECK(publish(&board, 0, PUKZARN_START, 0, &number), -EALREADY);
    CHECK(pukzarn_board_exit(&board, 0, 0), -EALREADY);
    CHECK(resume(&board, 0, 0, PUKZARN_CONT, 0), -ESRCH);
    CHECK(number, UNTOUCHED);
    CHECK_ROW(&board, 0, PUKZARN_STOPPED, 1, 0, STATUS_FORK);
    CHECK(pukzarn_board_claim(&board, 0, 15, &got), 0);
    CHECK(pukzarn_board_claim(&board, 0, 14, &got), -EAGAIN);
    CHECK(resume(&board, 0, 14, PUKZARN_CONT, 65), -EPERM); /* before -EIO */
    CHECK(resume(&board, 0, 15, PUKZARN_CONT, 65), -EIO);
    CHECK_ROW(&board, 0, PUKZARN_CLAIMED, 1, 15, 0);
    CHECK(resume(&board, 0, 15, PUKZARN_SYSCALL, 15), 0);
    CHECK(publish(&board, 0, PUKZARN_FORK, 101, &number), -EINVAL); /* it is born */
    CHECK(publish(&board, 0, PUKZARN_CLONE, 102, &number), 0);
    CHECK(number, 2);
    CHECK(pukzarn_board_close(&board), 0);
}

/* Each kind of stop and of death has its raw status. */
static void statuses(void)
{
    static const struct {
        uint32_t kind, value, status;
    } made[] = {
        {PUKZARN_START, 0, STATUS_START},     {PUKZARN_ENTER, 0, STATUS_SYSCALL},
        {PUKZARN_EXIT, 0, STATUS_SYSCALL},    {PUKZARN_SECCOMP, 1, STATUS_SECCOMP},
        {PUKZARN_FORK, 101, STATUS_FORK},     {PUKZARN_CLONE, 102, STATUS_CLONE},
        {PUKZARN_EXEC, 100, STATUS_EXEC},     {PUKZARN_SIGNAL, 15, STATUS_SIGTERM},
        {PUKZARN_ENDING, 768, STATUS_ENDING},
    };
    struct pukzarn_row rows[3] = {row_of(100, 100, 77, 0), row_of(101, 101, 77, 100), row_of(102, 100, 77, 100)};
    pukzarn_board board = PUKZARN_CLOSED;
    struct pukzarn_got got;
    uint32_t faulty, number;
    CHECK(pukzarn_board_open(&board, rows, 3, &faulty), 0);
    for (uint32_t i = 0; i < sizeof made / sizeof *made; i++) {
        CHECK(publish(&board, 0, made[i].kind, made[i].value, &number), 0);
        CHECK(number, i + 1);
        CHECK_ROW(&board, 0, PUKZARN_STOPPED, i + 1, 0, made[i].status);
        CHECK(pukzarn_board_claim(&board, 0, 1, &got), 0);
        CHECK(got.status, made[i].status);
        CHECK(resume(&board, 0, 1, PUKZARN_CONT, 0), 0);
    }
    CHECK(pukzarn_board_exit(&board, 1, STATUS_CORE_SEGV), 0);
    CHECK_ROW(&board, 1, PUKZARN_DEAD, 0, 0, STATUS_CORE_SEGV);
    CHECK(pukzarn_board_close(&board), 0);
}

/* Roots 100 (group 77) and 200 (group 78), and 101, a child of 100 that is not born at first. */
static void waits_of_a_board(void)
{
    struct pukzarn_row rows[3] = {row_of(100, 100, 77, 0), row_of(101, 101, 77, 100), row_of(200, 200, 78, 0)};
    pukzarn_board board = PUKZARN_CLOSED;
    struct pukzarn_got got;
    uint32_t faulty, number, room[2] = {UNTOUCHED, UNTOUCHED};
    CHECK(pukzarn_board_open(&board, rows, 3, &faulty), 0);
    WAITABLE(&board, P_ALL, 0, WEXITED, 0, none);
    WAITABLE(&board, P_PID, 101, WEXITED, -ECHILD, none); /* unborn */
    WAITABLE(&board, P_PID, 999, WEXITED, -ECHILD, none); /* nobody */
    WAITABLE(&board, P_PGID, 79, WEXITED, -ECHILD, none);
    CHECK(publish(&board, 0, PUKZARN_START, 0, &number), 0);
    CHECK(publish(&board, 2, PUKZARN_START, 0, &number), 0);
    WAITABLE(&board, P_ALL, -5, WSTOPPED, 2, zero_and_two); /* the id of P_ALL says nothing */
    WAITABLE(&board, P_ALL, 0, WEXITED | WNOHANG | WNOWAIT, 2, zero_and_two);
    WAITABLE(&board, P_PID, 200, WSTOPPED, 1, two);
    WAITABLE(&board, P_PGID, 77, WSTOPPED, 1, zero);
    CHECK(pukzarn_board_waitable(&board, P_ALL, 0, WSTOPPED, room, 1), 2);
    CHECK(room[0], 0);
    CHECK(room[1], UNTOUCHED);
    CHECK(pukzarn_board_claim(&board, 0, 0, &got), 0);
    WAITABLE(&board, P_PID, 100, WSTOPPED, 0, none); /* claimed: there may be more */
    CHECK(resume(&board, 0, 0, PUKZARN_CONT, 0), 0);
    CHECK(publish(&board, 0, PUKZARN_FORK, 101, &number), 0);
    CHECK(pukzarn_board_exit(&board, 1, STATUS_EXITED_3), 0);
    WAITABLE(&board, P_PID, 101, WSTOPPED, -ECHILD, none); /* its death is not asked for */
    WAITABLE(&board, P_PID, 101, WEXITED, 1, one);
    CHECK(pukzarn_board_claim(&board, 1, 0, &got), 0);
    WAITABLE(&board, P_PID, 101, WEXITED, -ECHILD, none); /* reaped */
    WAITABLE(&board, P_PGID, 77, WEXITED, 1, zero);
    CHECK(pukzarn_board_close(&board), 0);
}

static void waits_that_are_refused(void)
{
    struct pukzarn_row rows[1] = {row_of(100, 100, 77, 0)};
    pukzarn_board board = PUKZARN_CLOSED;
    uint32_t faulty, number;
    CHECK(P_ALL, 0);
    CHECK(P_PID, 1);
    CHECK(P_PGID, 2);
    CHECK(pukzarn_board_open(&board, rows, 1, &faulty), 0);
    CHECK(publish(&board, 0, PUKZARN_START, 0, &number), 0);
    WAITABLE(&board, 3, 100, WEXITED, -EINVAL, none);
    WAITABLE(&board, P_PID, 0, WEXITED, -EINVAL, none);
    WAITABLE(&board, P_PID, -100, WEXITED, -EINVAL, none);
    WAITABLE(&board, P_PGID, 0, WEXITED, -EINVAL, none);
    WAITABLE(&board, P_ALL, 0, WNOHANG, -EINVAL, none); /* neither WEXITED nor WSTOPPED */
    WAITABLE(&board, P_ALL, 0, WEXITED | WCONTINUED, -EINVAL, none);
    WAITABLE(&board, P_ALL, 0, WEXITED | 0x10, -EINVAL, none); /* no option has this bit */
    WAITABLE(&board, P_PID, 999, 0, -EINVAL, none);            /* before -ECHILD */
    CHECK(pukzarn_board_close(&board), 0);
}

/* Stop 16777215 is a row's last. 50 million calls: some seconds. */
static void the_last_stop(void)
{
    struct pukzarn_row rows[1] = {row_of(100, 100, 77, 0)};
    pukzarn_board board = PUKZARN_CLOSED;
    struct pukzarn_got got = no_got();
    uint32_t faulty, number = 0;
    int refused = 0;
    CHECK(pukzarn_board_open(&board, rows, 1, &faulty), 0);
    for (uint32_t made = 0; made < 16777215; made++) {
        refused |= publish(&board, 0, PUKZARN_ENTER, 0, &number);
        refused |= pukzarn_board_claim(&board, 0, 0, &got);
        refused |= resume(&board, 0, 0, PUKZARN_SYSCALL, 0);
    }
    CHECK(refused, 0);
    CHECK(got.number, 16777215);
    CHECK(number, 16777215);
    CHECK(publish(&board, 0, PUKZARN_FORK, 101, &number), -EINVAL); /* no child: before -EOVERFLOW */
    CHECK(publish(&board, 0, PUKZARN_ENTER, 0, &number), -EOVERFLOW);
    CHECK_ROW(&board, 0, PUKZARN_RUNNING, 0, 0, 0);
    CHECK(pukzarn_board_exit(&board, 0, 0), 0);
    CHECK_ROW(&board, 0, PUKZARN_DEAD, 16777215, 0, 0);
    CHECK(pukzarn_board_close(&board), 0);
}

static void a_closed_board_is_refused(void)
{
    pukzarn_board board = PUKZARN_CLOSED;
    struct pukzarn_state state = no_state();
    struct pukzarn_got got = no_got();
    uint32_t number = UNTOUCHED;
    CHECK(pukzarn_board_state(&board, 0, &state), -EBADF);
    CHECK(publish(&board, 0, PUKZARN_START, 0, &number), -EBADF);
    CHECK(pukzarn_board_claim(&board, 0, 0, &got), -EBADF);
    CHECK(resume(&board, 0, 0, PUKZARN_CONT, 0), -EBADF);
    CHECK(pukzarn_board_exit(&board, 0, 0), -EBADF);
    WAITABLE(&board, P_ALL, 0, WEXITED, -EBADF, none);
    CHECK(state.phase, UNTOUCHED);
    CHECK(number, UNTOUCHED);
    CHECK(got.number, UNTOUCHED);
}

int main(void)
{
    opens_and_closes();
    faulty_rows_are_named();
    a_leader_and_its_thread();
    calls_of_a_running_row_are_refused();
    calls_of_a_stopped_row_are_refused();
    statuses();
    waits_of_a_board();
    waits_that_are_refused();
    the_last_stop();
    a_closed_board_is_refused();
    return checked("calls_board");
}
