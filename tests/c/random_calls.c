/* Ten million random calls over random handles, open and closed, by one seed. The model of model.h answers each too,
 * and what both answer and write is compared. At the end all is closed, and the address sanitizer sees that nothing
 * leaks. */
#include "check.h"
#include "model.h"
#include <sys/wait.h>

enum { CALLS = 10000000, BOARDS = 2, RECORDS = 2, TRACERS = 3 };

static struct {
    pukzarn_board handle;
    int is_open;
    struct model model;
} boards[BOARDS];

static struct {
    pukzarn_record handle;
    int is_open;
    struct model_record model;
} records[RECORDS];

static struct {
    pukzarn_tracee tracees[MODEL_ROWS];
    pukzarn_tracer tracers[TRACERS];
    int open_tracees[MODEL_ROWS], open_tracers[TRACERS];
    struct model model;
} cells;

/* ---- Random numbers ---- */

/* xorshift64 (Marsaglia), which never is 0. */
static uint64_t seed = 0x9e3779b97f4a7c15;

static uint32_t pick(uint32_t count)
{
    seed ^= seed << 13;
    seed ^= seed >> 7;
    seed ^= seed << 17;
    return (uint32_t)(seed >> 32) % count;
}

#define PICK(list) ((list)[pick(sizeof(list) / sizeof *(list))])

static struct pukzarn_stop random_stop(void)
{
    static const uint32_t values[] = {0, 0, 0, 0, 101, 102, 201, 103, 15, 64, 65, 768, 0x8b, 0x7f, 65535, 65536};
    uint32_t kind = pick(10);
    return stop_of(kind, kind <= PUKZARN_EXIT && pick(8) != 0 ? 0 : PICK(values));
}

static struct pukzarn_restart random_restart(void)
{
    static const uint32_t kinds[] = {0, 0, 0, 1, 1, 1, 2}, signals[] = {0, 0, 0, 15, 64, 65};
    uint32_t kind = PICK(kinds);
    return restart_of(kind, PICK(signals));
}

static uint32_t random_death(void)
{
    static const uint32_t statuses[] = {0, 0, 0x300, 0xff00, 0x0f, 0x8b, 64, 65, 0x7f, 0xc1, 0x10000, 0x101};
    return PICK(statuses);
}

static int32_t random_id(void)
{
    static const int32_t ids[] = {100, 101, 102, 103, 200, 201, 77, 78, -77, -78, -1, -1, 0, 999, INT32_MIN};
    return PICK(ids);
}

static uint32_t random_options(void)
{
    static const uint32_t options[] = {
        WEXITED,           WEXITED,           WSTOPPED,
        WSTOPPED | WEXITED, WEXITED | WNOWAIT, WSTOPPED | WNOHANG,
        WEXITED | 0x10,    WNOHANG,           WEXITED | WCONTINUED,
        0,                 WEXITED | (uint32_t)__WALL,
    };
    return PICK(options);
}

static uint64_t random_address(void)
{
    static const uint64_t near[] = {0x0ff8, 0x0ffc, 0x0fff, 0, 8};
    return PICK(model_pages) + PICK(near);
}

static uint32_t random_row(const struct model *model)
{
    return pick(16) == 0 ? model->count + pick(300) : pick(MODEL_ROWS);
}

/* ---- Comparisons ---- */

static void same(int line, long got, long wanted)
{
    check(__FILE__, line, "the answer", got, wanted);
}

#define SAME(got, wanted) same(__LINE__, (long)(got), (long)(wanted))
#define SAME_BYTES(got, wanted) CHECK_BYTES(&(got), &(wanted), sizeof(wanted))

/* ---- Rosters ---- */

static const uint32_t rosters[][MODEL_ROWS][4] = {
    {{100, 100, 77, 0},
     {101, 100, 77, 100},
     {102, 102, 77, 100},
     {200, 200, 78, 0},
     {201, 200, 78, 200},
     {103, 102, 77, 102}},
    {{200, 200, 78, 0},
     {100, 100, 78, 0},
     {201, 201, 78, 200},
     {101, 201, 78, 201},
     {102, 100, 78, 100},
     {103, 103, 78, 101}},
    {{100, 100, 77, 0},
     {101, 101, 77, 0},
     {102, 102, 77, 0},
     {103, 103, 78, 0},
     {200, 200, 78, 0},
     {201, 201, 79, 0}},
};

/* Some first rows of a roster, one of which may be spoilt. */
static uint32_t random_rows(struct pukzarn_row rows[MODEL_ROWS])
{
    static const uint32_t wrong[] = {0, 4194304, 100, 77, 999};
    const uint32_t(*from)[4] = PICK(rosters);
    uint32_t count = 1 + pick(MODEL_ROWS);
    memcpy(rows, from, sizeof *rows * MODEL_ROWS);
    if (pick(4) == 0) {
        uint32_t numbers[4], at = pick(count);
        memcpy(numbers, &rows[at], sizeof numbers);
        numbers[pick(4)] = PICK(wrong);
        memcpy(&rows[at], numbers, sizeof numbers);
    }
    return count;
}

/* ---- Boards ---- */

static void board_open(void)
{
    uint32_t at = pick(BOARDS), faulty = UNTOUCHED, wanted_faulty = UNTOUCHED;
    struct pukzarn_row rows[MODEL_ROWS];
    uint32_t count = random_rows(rows);
    int wanted = boards[at].is_open ? -EBUSY : model_open(&boards[at].model, rows, count, &wanted_faulty);
    SAME(pukzarn_board_open(&boards[at].handle, rows, count, &faulty), wanted);
    SAME(faulty, wanted_faulty);
    boards[at].is_open |= wanted == 0;
}

static void board_close(void)
{
    uint32_t at = pick(BOARDS);
    SAME(pukzarn_board_close(&boards[at].handle), boards[at].is_open ? 0 : -EBADF);
    boards[at].is_open = 0;
}

static void board_state(void)
{
    uint32_t at = pick(BOARDS), row = random_row(&boards[at].model);
    struct pukzarn_state state = no_state(), wanted = no_state();
    if (boards[at].is_open)
        wanted = model_state(&boards[at].model, row);
    SAME(pukzarn_board_state(&boards[at].handle, row, &state), boards[at].is_open ? 0 : -EBADF);
    SAME_BYTES(state, wanted);
}

/* What is refused where a row is to run: 0 where it does. */
static int unless_running(const struct model *model, uint32_t row)
{
    uint32_t phase = model_state(model, row).phase;
    if (phase == PUKZARN_ABSENT)
        return -EINVAL;
    if (phase == PUKZARN_UNBORN)
        return -ECHILD;
    return phase == PUKZARN_RUNNING ? 0 : -EALREADY;
}

static void board_publish(void)
{
    uint32_t at = pick(BOARDS), number = UNTOUCHED, wanted_number = UNTOUCHED, row = random_row(&boards[at].model);
    struct model *model = &boards[at].model;
    struct pukzarn_stop stop = random_stop();
    int wanted = !boards[at].is_open ? -EBADF : !model_is_stop(&stop) ? -EINVAL : unless_running(model, row);
    if (wanted == 0)
        wanted = model_publish(model, row, &stop, &wanted_number);
    SAME(pukzarn_board_publish(&boards[at].handle, row, &stop, &number), wanted);
    SAME(number, wanted_number);
}

static void board_exit(void)
{
    uint32_t at = pick(BOARDS), status = random_death(), row = random_row(&boards[at].model);
    struct model *model = &boards[at].model;
    int wanted = !boards[at].is_open ? -EBADF : !model_is_death(status) ? -EINVAL : unless_running(model, row);
    if (wanted == 0)
        wanted = model_exit(model, row, status);
    SAME(pukzarn_board_exit(&boards[at].handle, row, status), wanted);
}

static void board_claim(void)
{
    uint32_t at = pick(BOARDS), row = random_row(&boards[at].model), tracer = pick(17);
    struct model *model = &boards[at].model;
    struct pukzarn_state state = model_state(model, row);
    struct pukzarn_got got = no_got(), wanted_got = no_got();
    int wanted = 0;
    if (!boards[at].is_open)
        wanted = -EBADF;
    else if (state.phase == PUKZARN_ABSENT || tracer > 15)
        wanted = -EINVAL;
    else if (state.phase == PUKZARN_UNBORN)
        wanted = -ECHILD;
    else if (state.phase != PUKZARN_STOPPED && state.phase != PUKZARN_DEAD)
        wanted = -EAGAIN;
    else {
        wanted_got.number = state.number;
        wanted_got.status = state.status;
        wanted_got.death = state.phase == PUKZARN_DEAD;
        model_claim(model, row, tracer);
    }
    SAME(pukzarn_board_claim(&boards[at].handle, row, tracer, &got), wanted);
    SAME_BYTES(got, wanted_got);
}

static void board_resume(void)
{
    uint32_t at = pick(BOARDS), row = random_row(&boards[at].model), tracer;
    struct model *model = &boards[at].model;
    struct pukzarn_state state = model_state(model, row);
    struct pukzarn_restart restart = random_restart();
    int wanted = 0;
    tracer = pick(4) != 0 ? state.tracer : pick(17);
    if (!boards[at].is_open)
        wanted = -EBADF;
    else if (restart.kind > PUKZARN_SYSCALL || state.phase == PUKZARN_ABSENT || tracer > 15)
        wanted = -EINVAL;
    else if (state.phase == PUKZARN_UNBORN)
        wanted = -ECHILD;
    else if (state.phase != PUKZARN_CLAIMED)
        wanted = -ESRCH;
    else if (state.tracer != tracer)
        wanted = -EPERM;
    else if (restart.signal > 64)
        wanted = -EIO;
    else
        model_resume(model, row, &restart);
    SAME(pukzarn_board_resume(&boards[at].handle, row, tracer, &restart), wanted);
}

static void board_waitable(void)
{
    uint32_t at = pick(BOARDS), idtype = pick(4), options = random_options(), room = pick(MODEL_ROWS + 1);
    uint32_t rows[MODEL_ROWS], wanted_rows[MODEL_ROWS], found[MODEL_ROWS];
    int32_t id = random_id();
    struct model_wait wait;
    int wanted = !boards[at].is_open ? -EBADF : model_waitid(idtype, id, options, &wait);
    memset(rows, 0xab, sizeof rows);
    memset(wanted_rows, 0xab, sizeof wanted_rows);
    if (wanted == 0)
        wanted = model_waitable(&boards[at].model, &wait, found);
    for (int i = 0; i < wanted && i < (int)room; i++)
        wanted_rows[i] = found[i];
    SAME(pukzarn_board_waitable(&boards[at].handle, idtype, id, options, rows, room), wanted);
    SAME_BYTES(rows, wanted_rows);
}

/* ---- Cells ---- */

/* Whether some handle of the cells is open. */
static int is_cells_open(void)
{
    int open = 0;
    for (uint32_t row = 0; row < MODEL_ROWS; row++)
        open |= cells.open_tracees[row];
    for (int i = 0; i < TRACERS; i++)
        open |= cells.open_tracers[i];
    return open;
}

static void cells_open(void)
{
    uint32_t faulty = UNTOUCHED, wanted_faulty = UNTOUCHED, count;
    struct pukzarn_row rows[MODEL_ROWS];
    int wanted = -EBUSY;
    count = random_rows(rows);
    if (is_cells_open())
        count = MODEL_ROWS; /* so that one of these handles is open */
    else
        wanted = model_open(&cells.model, rows, count, &wanted_faulty);
    SAME(pukzarn_open(rows, count, cells.tracees, count, cells.tracers, TRACERS, &faulty), wanted);
    SAME(faulty, wanted_faulty);
    for (uint32_t row = 0; wanted == 0 && row < count; row++)
        cells.open_tracees[row] = 1;
    for (int i = 0; wanted == 0 && i < TRACERS; i++)
        cells.open_tracers[i] = 1;
}

static void close_tracee(uint32_t row)
{
    SAME(pukzarn_tracee_close(&cells.tracees[row]), cells.open_tracees[row] ? 0 : -EBADF);
    cells.open_tracees[row] = 0;
}

/* What it has claimed is restarted by PTRACE_CONT, without a signal. */
static void close_tracer(uint32_t tracer)
{
    struct pukzarn_restart restart = restart_of(PUKZARN_CONT, 0);
    SAME(pukzarn_tracer_close(&cells.tracers[tracer]), cells.open_tracers[tracer] ? 0 : -EBADF);
    for (uint32_t row = 0; cells.open_tracers[tracer] && row < cells.model.count; row++) {
        struct model_row *at = &cells.model.rows[row];
        if (at->born && at->phase == PUKZARN_CLAIMED && at->tracer == tracer)
            model_resume(&cells.model, row, &restart);
    }
    cells.open_tracers[tracer] = 0;
}

/* One handle, or all of them. */
static void cells_close(void)
{
    uint32_t all = pick(2) == 0, row = pick(MODEL_ROWS), tracer = pick(TRACERS);
    for (uint32_t i = 0; i < MODEL_ROWS; i++)
        if (all || i == row)
            close_tracee(i);
    for (uint32_t i = 0; i < TRACERS; i++)
        if (all || i == tracer)
            close_tracer(i);
}

static void tracee_take_up(void)
{
    uint32_t row = pick(MODEL_ROWS);
    struct pukzarn_restart restart = restart_of(UNTOUCHED, UNTOUCHED), wanted_restart = restart;
    int wanted = cells.open_tracees[row] ? model_take_up(&cells.model, row, &wanted_restart) : -EBADF;
    SAME(pukzarn_tracee_take_up(&cells.tracees[row], &restart), wanted);
    SAME_BYTES(restart, wanted_restart);
}

static void tracee_publish(void)
{
    uint32_t row = pick(MODEL_ROWS), number = UNTOUCHED, wanted_number = UNTOUCHED;
    struct pukzarn_stop stop = random_stop();
    int wanted = !cells.open_tracees[row] ? -EBADF : !model_is_stop(&stop) ? -EINVAL : 0;
    if (wanted == 0)
        wanted = cells.model.rows[row].in_hand ? model_publish(&cells.model, row, &stop, &wanted_number) : -EALREADY;
    SAME(pukzarn_tracee_publish(&cells.tracees[row], &stop, &number), wanted);
    SAME(number, wanted_number);
}

static void tracee_exit(void)
{
    uint32_t row = pick(MODEL_ROWS), status = random_death();
    int wanted = !cells.open_tracees[row] ? -EBADF : !model_is_death(status) ? -EINVAL : 0;
    if (wanted == 0)
        wanted = cells.model.rows[row].in_hand ? model_exit(&cells.model, row, status) : -EALREADY;
    SAME(pukzarn_tracee_exit(&cells.tracees[row], status), wanted);
}

static void tracer_look(void)
{
    uint32_t tracer = pick(TRACERS), row = random_row(&cells.model);
    struct pukzarn_state state = no_state(), wanted = no_state();
    if (cells.open_tracers[tracer]) {
        wanted = model_state(&cells.model, row);
        wanted.tracer = 0;
    }
    SAME(pukzarn_tracer_look(&cells.tracers[tracer], row, &state), cells.open_tracers[tracer] ? 0 : -EBADF);
    SAME_BYTES(state, wanted);
}

/* What a wait of a tracer answers and reports; it claims in the model. */
static int wait_in_model(uint32_t tracer, const struct model_wait *wait, struct pukzarn_waited *waited)
{
    uint32_t rows[MODEL_ROWS];
    int count = model_waitable(&cells.model, wait, rows);
    const struct model_row *at;
    if (count <= 0)
        return count;
    at = &cells.model.rows[rows[0]];
    waited->row = rows[0];
    waited->tid = at->ids.tid;
    waited->number = at->record.number;
    waited->status = at->status;
    waited->death = at->phase == PUKZARN_DEAD;
    if (!wait->keeps)
        model_claim(&cells.model, rows[0], tracer);
    return 1;
}

static void tracer_waitid(void)
{
    uint32_t tracer = pick(TRACERS), idtype = pick(4), options = random_options();
    int32_t id = random_id();
    struct pukzarn_waited waited = no_waited(), wanted_waited = no_waited();
    struct model_wait wait;
    int wanted = !cells.open_tracers[tracer] ? -EBADF : model_waitid(idtype, id, options, &wait);
    if (wanted == 0)
        wanted = wait_in_model(tracer, &wait, &wanted_waited);
    SAME(pukzarn_tracer_waitid(&cells.tracers[tracer], idtype, id, options, &waited), wanted);
    SAME_BYTES(waited, wanted_waited);
}

static void tracer_wait_row(void)
{
    uint32_t tracer = pick(TRACERS), row = random_row(&cells.model), options = random_options();
    struct pukzarn_waited waited = no_waited(), wanted_waited = no_waited();
    struct model_wait wait;
    int wanted = -EINVAL;
    if (!cells.open_tracers[tracer])
        wanted = -EBADF;
    else if (row < cells.model.count)
        wanted = model_waitid(P_PID, (int32_t)cells.model.rows[row].ids.tid, options, &wait);
    if (wanted == 0)
        wanted = wait_in_model(tracer, &wait, &wanted_waited);
    SAME(pukzarn_tracer_wait_row(&cells.tracers[tracer], row, options, &waited), wanted);
    SAME_BYTES(waited, wanted_waited);
}

static void tracer_waitpid(void)
{
    static const uint32_t options[] = {0, WNOHANG, WUNTRACED, WNOHANG | (uint32_t)__WALL, WEXITED, WNOWAIT, WCONTINUED};
    uint32_t tracer = pick(TRACERS), option = PICK(options);
    int32_t pid = random_id();
    struct pukzarn_waited waited;
    struct model_wait wait;
    int status = 7, wanted_status = 7;
    int wanted = !cells.open_tracers[tracer] ? -EBADF : model_waitpid(pid, option, &wait);
    if (wanted == 0)
        wanted = wait_in_model(tracer, &wait, &waited);
    if (wanted == 1) {
        wanted = (int)waited.tid;
        wanted_status = (int)waited.status;
    }
    SAME(pukzarn_tracer_waitpid(&cells.tracers[tracer], pid, &status, option), wanted);
    SAME(status, wanted_status);
}

/* The row of a pid whose stop this tracer has claimed, or MODEL_ROWS. */
static uint32_t claimed_row(uint32_t tracer, int32_t pid)
{
    uint32_t row = 0;
    for (; row < cells.model.count; row++) {
        const struct model_row *at = &cells.model.rows[row];
        if (at->born && at->phase == PUKZARN_CLAIMED && at->tracer == tracer && (int32_t)at->ids.tid == pid)
            return row;
    }
    return MODEL_ROWS;
}

static void tracer_resume(void)
{
    uint32_t tracer = pick(TRACERS), row;
    int32_t pid = random_id();
    struct pukzarn_restart restart = random_restart();
    int wanted = 0;
    row = claimed_row(tracer, pid);
    if (!cells.open_tracers[tracer])
        wanted = -EBADF;
    else if (restart.kind > PUKZARN_SYSCALL)
        wanted = -EINVAL;
    else if (row == MODEL_ROWS)
        wanted = -ESRCH;
    else if (restart.signal > 64)
        wanted = -EIO;
    else
        model_resume(&cells.model, row, &restart);
    SAME(pukzarn_tracer_resume(&cells.tracers[tracer], pid, &restart), wanted);
}

/* ---- Records: of a record's handle, in a tracee's hand, or claimed by a tracer ---- */

enum { OF_RECORD, OF_TRACEE, OF_TRACER, OF_NONE };

struct target {
    int of;
    uint32_t at;
    int32_t pid;
    int refused;
    struct model_record *model;
};

/* Another one than of the kind `but`, since each call of a record is one of two or three kinds. */
static struct target random_target(int but)
{
    struct target target = {(int)pick(3), 0, 0, 0, NULL};
    while (target.of == but)
        target.of = (int)pick(3);
    if (target.of == OF_RECORD) {
        target.at = pick(RECORDS);
        target.refused = records[target.at].is_open ? 0 : -EBADF;
        target.model = &records[target.at].model;
    } else if (target.of == OF_TRACEE) {
        target.at = pick(MODEL_ROWS);
        target.model = &cells.model.rows[target.at].record;
        target.refused = !cells.open_tracees[target.at] ? -EBADF : cells.model.rows[target.at].in_hand ? 0 : -ESRCH;
    } else {
        uint32_t row;
        target.at = pick(TRACERS);
        target.pid = random_id();
        row = claimed_row(target.at, target.pid);
        target.refused = !cells.open_tracers[target.at] ? -EBADF : row < MODEL_ROWS ? 0 : -ESRCH;
        target.model = row < MODEL_ROWS ? &cells.model.rows[row].record : NULL;
    }
    return target;
}

/* The call of this target's kind; NAME is the end of its name, and the rest its arguments. */
#define CALL_OF(target, name, ...) \
    ((target).of == OF_RECORD   ? pukzarn_record_##name(&records[(target).at].handle, __VA_ARGS__) \
     : (target).of == OF_TRACEE ? pukzarn_tracee_##name(&cells.tracees[(target).at], __VA_ARGS__) \
                                : pukzarn_tracer_##name(&cells.tracers[(target).at], (target).pid, __VA_ARGS__))

static void record_open(void)
{
    static const uint32_t tids[] = {100, 1, 4194303, 0, 4194304};
    uint32_t at = pick(RECORDS), tid = PICK(tids);
    int wanted = records[at].is_open ? -EBUSY : tid == 0 || tid == 4194304 ? -EINVAL : 0;
    SAME(pukzarn_record_open(&records[at].handle, tid), wanted);
    if (wanted == 0) {
        memset(&records[at].model, 0, sizeof records[at].model);
        records[at].is_open = 1;
    }
}

static void record_close(void)
{
    uint32_t at = pick(RECORDS);
    SAME(pukzarn_record_close(&records[at].handle), records[at].is_open ? 0 : -EBADF);
    records[at].is_open = 0;
}

static void record_set_stop(void)
{
    static const uint32_t numbers[] = {0, 1, 16777215, 16777216};
    uint32_t at = pick(RECORDS), number = PICK(numbers);
    struct pukzarn_stop stop = random_stop();
    int wanted = !records[at].is_open ? -EBADF : number > 16777215 || !model_is_stop(&stop) ? -EINVAL : 0;
    SAME(pukzarn_record_set_stop(&records[at].handle, number, &stop), wanted);
    if (wanted == 0) {
        records[at].model.number = number;
        records[at].model.stop = stop;
    }
}

static void any_getregs(void)
{
    struct target target = random_target(OF_NONE);
    struct pukzarn_regs regs, wanted;
    memset(&regs, 0xab, sizeof regs);
    memset(&wanted, 0xab, sizeof wanted);
    if (target.refused == 0)
        wanted = target.model->regs;
    SAME(CALL_OF(target, getregs, &regs), target.refused);
    SAME_BYTES(regs, wanted);
}

static void any_setregs(void)
{
    struct target target = random_target(OF_NONE);
    uint64_t words[27];
    struct pukzarn_regs regs;
    for (int i = 0; i < 27; i++)
        words[i] = (uint64_t)pick(UINT32_MAX) << 32 | pick(UINT32_MAX);
    memcpy(&regs, words, sizeof regs);
    if (pick(2) == 0)
        regs.rax = (uint64_t)-(int64_t)pick(5000); /* about where errors end */
    if (target.refused == 0)
        target.model->regs = regs;
    SAME(CALL_OF(target, setregs, &regs), target.refused);
}

static void any_map(void)
{
    static const uint64_t others[] = {0x10001, 0x12fff, 0xffffffffffffffff};
    struct target target = random_target(OF_TRACER);
    uint64_t addr = pick(8) == 0 ? PICK(others) : PICK(model_pages);
    int wanted = target.refused;
    if (wanted == 0)
        wanted = model_map(target.model, addr);
    if (target.of == OF_RECORD)
        SAME(pukzarn_record_map(&records[target.at].handle, addr), wanted);
    else
        SAME(pukzarn_tracee_map(&cells.tracees[target.at], addr), wanted);
}

static void any_read(void)
{
    struct target target = random_target(OF_NONE);
    uint64_t addr = random_address();
    size_t len = pick(25);
    unsigned char bytes[24], wanted_bytes[24];
    long wanted = target.refused;
    memset(bytes, 0xab, sizeof bytes);
    memset(wanted_bytes, 0xab, sizeof wanted_bytes);
    if (wanted == 0)
        wanted = model_read(target.model, addr, wanted_bytes, len);
    SAME(CALL_OF(target, read, addr, bytes, len), wanted);
    CHECK_BYTES(bytes, wanted_bytes, sizeof bytes);
}

static void any_write(void)
{
    struct target target = random_target(OF_NONE);
    uint64_t addr = random_address();
    size_t len = pick(25);
    unsigned char bytes[24];
    int wanted = target.refused;
    for (size_t i = 0; i < sizeof bytes; i++)
        bytes[i] = (unsigned char)pick(256);
    if (wanted == 0)
        wanted = model_write(target.model, addr, bytes, len);
    SAME(CALL_OF(target, write, addr, bytes, len), wanted);
}

/* The calls that a tracee has not. */
static void any_stop(void)
{
    struct target target = random_target(OF_TRACEE);
    struct pukzarn_stop stop = no_stop(), wanted = no_stop();
    uint32_t number = UNTOUCHED, wanted_number = UNTOUCHED;
    uint64_t message = UNTOUCHED, wanted_message = UNTOUCHED;
    if (target.refused == 0) {
        wanted = target.model->stop;
        wanted_number = target.model->number;
        wanted_message = model_message(target.model);
    }
    if (target.of == OF_RECORD) {
        SAME(pukzarn_record_stop(&records[target.at].handle, &number, &stop), target.refused);
        SAME(pukzarn_record_message(&records[target.at].handle, &message), target.refused);
    } else {
        SAME(pukzarn_tracer_stop(&cells.tracers[target.at], target.pid, &number, &stop), target.refused);
        SAME(pukzarn_tracer_message(&cells.tracers[target.at], target.pid, &message), target.refused);
    }
    SAME(number, wanted_number);
    SAME(message, wanted_message);
    SAME_BYTES(stop, wanted);
}

static void any_information(void)
{
    struct target target = random_target(OF_TRACEE);
    unsigned char bytes[90], wanted_bytes[90];
    size_t len = pick(91);
    long wanted = target.refused;
    memset(bytes, 0xab, sizeof bytes);
    memset(wanted_bytes, 0xab, sizeof wanted_bytes);
    if (wanted == 0)
        wanted = model_information(target.model, wanted_bytes, len);
    if (target.of == OF_RECORD)
        SAME(pukzarn_record_syscall_info(&records[target.at].handle, bytes, len), wanted);
    else
        SAME(pukzarn_tracer_syscall_info(&cells.tracers[target.at], target.pid, bytes, len), wanted);
    CHECK_BYTES(bytes, wanted_bytes, sizeof bytes);
}

typedef void call(void);

static call *const often[] = {
    board_open,     board_state,    board_publish,   board_publish,   board_publish,  board_claim,    board_claim,
    board_resume,   board_resume,   board_waitable,  cells_open,      tracee_take_up, tracee_take_up, tracee_publish,
    tracee_publish, tracee_publish, tracer_look,     tracer_waitid,   tracer_wait_row, tracer_waitpid, tracer_resume,
    tracer_resume,  record_open,    record_set_stop, any_getregs,     any_setregs,    any_map,        any_read,
    any_write,      any_stop,       any_information,
};

/* Ends what the others build up. */
static call *const seldom[] = {
    board_exit, board_exit, board_exit, tracee_exit, tracee_exit, tracee_exit, board_close, cells_close, record_close,
};

int main(void)
{
    for (int i = 0; i < CALLS; i++) {
        if (pick(100) != 0)
            PICK(often)();
        else
            PICK(seldom)();
    }
    for (int i = 0; i < BOARDS; i++)
        SAME(pukzarn_board_close(&boards[i].handle), boards[i].is_open ? 0 : -EBADF);
    for (int i = 0; i < RECORDS; i++)
        SAME(pukzarn_record_close(&records[i].handle), records[i].is_open ? 0 : -EBADF);
    for (uint32_t i = 0; i < MODEL_ROWS; i++)
        close_tracee(i);
    for (uint32_t i = 0; i < TRACERS; i++)
        close_tracer(i);
    return checked("random_calls");
}
