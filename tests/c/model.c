/* A plain model of boards, cells and records (model.h). */
#include "model.h"
#include <errno.h>
#include <string.h>
#include <sys/wait.h>

const uint64_t model_pages[MODEL_PAGES] = {0x10000, 0x11000, 0x13000, 0xfffffffffffff000};

int model_is_death(uint32_t status)
{
    uint32_t signal = status & 0x7f;
    if (signal == 0) /* an exit: its code is the second byte, and nothing else is set */
        return (status & ~(uint32_t)0xff00) == 0;
    return status <= 0xff && signal <= 64;
}

int model_is_stop(const struct pukzarn_stop *stop)
{
    if (stop->kind == PUKZARN_START || stop->kind == PUKZARN_ENTER || stop->kind == PUKZARN_EXIT)
        return stop->value == 0;
    if (stop->kind == PUKZARN_SECCOMP)
        return stop->value <= 0xffff;
    if (stop->kind == PUKZARN_SIGNAL)
        return stop->value >= 1 && stop->value <= 64;
    if (stop->kind == PUKZARN_ENDING)
        return model_is_death(stop->value);
    return stop->kind == PUKZARN_FORK || stop->kind == PUKZARN_CLONE || stop->kind == PUKZARN_EXEC;
}

/* The raw wait status of a stop: SIGTRAP is 5, and the events have the numbers of <linux/ptrace.h>. */
static uint32_t status_of(const struct pukzarn_stop *stop)
{
    switch (stop->kind) {
    case PUKZARN_ENTER:
    case PUKZARN_EXIT:
        return (5 | 0x80) << 8 | 0x7f;
    case PUKZARN_SIGNAL:
        return stop->value << 8 | 0x7f;
    case PUKZARN_FORK:
        return 1 << 16 | 5 << 8 | 0x7f;
    case PUKZARN_CLONE:
        return 3 << 16 | 5 << 8 | 0x7f;
    case PUKZARN_EXEC:
        return 4 << 16 | 5 << 8 | 0x7f;
    case PUKZARN_ENDING:
        return 6 << 16 | 5 << 8 | 0x7f;
    case PUKZARN_SECCOMP:
        return 7 << 16 | 5 << 8 | 0x7f;
    }
    return 128 << 16 | 5 << 8 | 0x7f;
}

/* ---- Rows ---- */

static int is_id(uint32_t number)
{
    return number >= 1 && number <= 4194303;
}

/* Whether row `at` may come after the rows before it. */
static int is_row(const struct pukzarn_row *rows, size_t at)
{
    const struct pukzarn_row *row = &rows[at], *parent = NULL;
    if (!is_id(row->tid) || !is_id(row->tgid) || !is_id(row->pgid))
        return 0;
    for (size_t i = 0; i < at; i++) {
        if (rows[i].tid == row->tid)
            return 0;
        if (rows[i].tid == row->parent)
            parent = &rows[i];
    }
    if (row->parent == 0)
        return row->tgid == row->tid;
    return parent != NULL && parent->pgid == row->pgid && (row->tgid == row->tid || row->tgid == parent->tgid);
}

int model_open(struct model *model, const struct pukzarn_row *rows, size_t count, uint32_t *faulty)
{
    for (size_t i = 0; i < count; i++) {
        if (!is_row(rows, i)) {
            *faulty = (uint32_t)i;
            return -EINVAL;
        }
    }
    memset(model, 0, sizeof *model);
    model->count = (uint32_t)count;
    for (size_t i = 0; i < count; i++) {
        model->rows[i].ids = rows[i];
        model->rows[i].born = rows[i].parent == 0;
        model->rows[i].phase = PUKZARN_RUNNING;
    }
    return 0;
}

static int phase_of(const struct model *model, uint32_t row)
{
    if (row >= model->count)
        return PUKZARN_ABSENT;
    return model->rows[row].born ? model->rows[row].phase : PUKZARN_UNBORN;
}

struct pukzarn_state model_state(const struct model *model, uint32_t row)
{
    struct pukzarn_state state = {0, 0, 0, 0};
    state.phase = (uint32_t)phase_of(model, row);
    if (state.phase == PUKZARN_STOPPED || state.phase == PUKZARN_CLAIMED || state.phase == PUKZARN_DEAD)
        state.number = model->rows[row].record.number;
    if (state.phase == PUKZARN_CLAIMED)
        state.tracer = model->rows[row].tracer;
    if (state.phase == PUKZARN_STOPPED || state.phase == PUKZARN_DEAD)
        state.status = model->rows[row].status;
    return state;
}

static int is_alive(const struct model *model, uint32_t row)
{
    int phase = phase_of(model, row);
    return phase == PUKZARN_RUNNING || phase == PUKZARN_STOPPED || phase == PUKZARN_CLAIMED;
}

/* A stop of a row that runs. */
int model_publish(struct model *model, uint32_t row, const struct pukzarn_stop *stop, uint32_t *number)
{
    struct model_row *at = &model->rows[row];
    if (stop->kind == PUKZARN_FORK || stop->kind == PUKZARN_CLONE) {
        uint32_t child = 0;
        while (child < model->count && (model->rows[child].born || model->rows[child].ids.parent != at->ids.tid))
            child++;
        if (child == model->count || model->rows[child].ids.tid != stop->value)
            return -EINVAL;
        model->rows[child].born = 1;
    }
    at->phase = PUKZARN_STOPPED;
    at->in_hand = 0;
    at->status = status_of(stop);
    at->record.stop = *stop;
    at->record.number++;
    *number = at->record.number;
    return 0;
}

/* The end of a row that runs: a leader waits for the other rows of its group. */
int model_exit(struct model *model, uint32_t row, uint32_t status)
{
    struct model_row *at = &model->rows[row];
    for (uint32_t other = 0; other < model->count; other++) {
        int beside = other != row && model->rows[other].ids.tgid == at->ids.tgid;
        if (at->ids.tid == at->ids.tgid && beside && is_alive(model, other))
            return -EBUSY;
    }
    at->phase = PUKZARN_DEAD;
    at->in_hand = 0;
    at->status = status;
    return 0;
}

void model_claim(struct model *model, uint32_t row, uint32_t tracer)
{
    struct model_row *at = &model->rows[row];
    at->phase = at->phase == PUKZARN_DEAD ? PUKZARN_REAPED : PUKZARN_CLAIMED;
    at->tracer = tracer;
}

void model_resume(struct model *model, uint32_t row, const struct pukzarn_restart *restart)
{
    model->rows[row].phase = PUKZARN_RUNNING;
    model->rows[row].restart = *restart;
}

/* Whether a row that is not born can still be: its first born ancestor is alive. */
static int may_be_born(const struct model *model, uint32_t row)
{
    while (!model->rows[row].born) {
        uint32_t parent = 0;
        while (model->rows[parent].ids.tid != model->rows[row].ids.parent)
            parent++;
        row = parent;
    }
    return is_alive(model, row);
}

int model_take_up(struct model *model, uint32_t row, struct pukzarn_restart *restart)
{
    struct model_row *at = &model->rows[row];
    if (!at->born)
        return may_be_born(model, row) ? -EAGAIN : -ECHILD;
    if (at->in_hand || at->phase == PUKZARN_DEAD || at->phase == PUKZARN_REAPED)
        return -EALREADY;
    if (at->phase != PUKZARN_RUNNING)
        return -EAGAIN;
    at->in_hand = 1;
    *restart = at->restart;
    return 0;
}

/* ---- Waits ---- */

int model_waitid(uint32_t idtype, int32_t id, uint32_t options, struct model_wait *wait)
{
    const uint32_t known = WNOHANG | WSTOPPED | WEXITED | WCONTINUED | WNOWAIT | (uint32_t)__WALL;
    memset(wait, 0, sizeof *wait);
    if ((options & ~known) != 0 || (options & WCONTINUED) != 0 || (options & (WEXITED | WSTOPPED)) == 0)
        return -EINVAL;
    wait->deaths = (options & WEXITED) != 0;
    wait->keeps = (options & WNOWAIT) != 0;
    wait->all = idtype == P_ALL;
    if (wait->all)
        return 0;
    if (id <= 0 || (idtype != P_PID && idtype != P_PGID))
        return -EINVAL;
    if (idtype == P_PID)
        wait->tid = (uint32_t)id;
    else
        wait->pgid = (uint32_t)id;
    return 0;
}

int model_waitpid(int32_t pid, uint32_t options, struct model_wait *wait)
{
    memset(wait, 0, sizeof *wait);
    if ((options & ~(WNOHANG | WUNTRACED | (uint32_t)__WALL)) != 0 || pid == 0 || pid == INT32_MIN)
        return -EINVAL;
    wait->deaths = 1;
    wait->all = pid == -1;
    if (pid > 0)
        wait->tid = (uint32_t)pid;
    else
        wait->pgid = (uint32_t)-pid;
    return 0;
}

int model_waitable(const struct model *model, const struct model_wait *wait, uint32_t rows[MODEL_ROWS])
{
    int count = 0, may_come = 0;
    for (uint32_t row = 0; row < model->count; row++) {
        const struct pukzarn_row *ids = &model->rows[row].ids;
        int phase = phase_of(model, row);
        if (!wait->all && (wait->tid != 0 ? ids->tid != wait->tid : ids->pgid != wait->pgid))
            continue;
        if (phase == PUKZARN_STOPPED || (phase == PUKZARN_DEAD && wait->deaths))
            rows[count++] = row;
        may_come |= phase == PUKZARN_RUNNING || phase == PUKZARN_CLAIMED;
    }
    return count == 0 && !may_come ? -ECHILD : count;
}

/* ---- Records ---- */

/* The byte at an address, or NULL. */
static unsigned char *byte_at(struct model_record *record, uint64_t addr)
{
    for (int page = 0; page < MODEL_PAGES; page++)
        if (record->mapped[page] && addr - model_pages[page] < MODEL_PAGE)
            return &record->bytes[page][addr - model_pages[page]];
    return NULL;
}

int model_map(struct model_record *record, uint64_t addr)
{
    for (int page = 0; page < MODEL_PAGES; page++) {
        if (addr != model_pages[page])
            continue;
        if (record->mapped[page])
            return -EEXIST;
        record->mapped[page] = 1;
        return 0;
    }
    return -EINVAL; /* no other multiple of 4096 is asked for */
}

long model_read(struct model_record *record, uint64_t addr, unsigned char *to, size_t len)
{
    size_t count = 0;
    while (count < len && addr <= UINT64_MAX - count && byte_at(record, addr + count) != NULL) {
        to[count] = *byte_at(record, addr + count);
        count++;
    }
    return (long)count;
}

int model_write(struct model_record *record, uint64_t addr, const unsigned char *from, size_t len)
{
    unsigned char there[64];
    if (model_read(record, addr, there, len) != (long)len)
        return -EIO;
    for (size_t i = 0; i < len; i++)
        *byte_at(record, addr + i) = from[i];
    return 0;
}

uint64_t model_message(const struct model_record *record)
{
    return record->stop.kind == PUKZARN_SIGNAL ? 0 : record->stop.value;
}

/* Appends a number of some bytes, the lowest first. */
static void append(unsigned char *to, long *at, uint64_t number, int width)
{
    for (int i = 0; i < width; i++)
        to[(*at)++] = (unsigned char)(number >> 8 * i);
}

long model_information(const struct model_record *record, unsigned char *to, size_t len)
{
    const struct pukzarn_regs *regs = &record->regs;
    unsigned char all[84];
    long at = 0;
    uint32_t kind = record->stop.kind;
    append(all, &at, kind == PUKZARN_ENTER ? 1 : kind == PUKZARN_EXIT ? 2 : kind == PUKZARN_SECCOMP ? 3 : 0, 4);
    append(all, &at, 0xc000003e, 4); /* AUDIT_ARCH_X86_64 */
    append(all, &at, regs->rip, 8);
    append(all, &at, regs->rsp, 8);
    if (kind == PUKZARN_ENTER || kind == PUKZARN_SECCOMP) {
        append(all, &at, regs->orig_rax, 8);
        append(all, &at, regs->rdi, 8);
        append(all, &at, regs->rsi, 8);
        append(all, &at, regs->rdx, 8);
        append(all, &at, regs->r10, 8);
        append(all, &at, regs->r8, 8);
        append(all, &at, regs->r9, 8);
    }
    if (kind == PUKZARN_SECCOMP)
        append(all, &at, record->stop.value, 4);
    if (kind == PUKZARN_EXIT) {
        append(all, &at, regs->rax, 8);
        append(all, &at, regs->rax >= (uint64_t)-4095, 1);
    }
    memcpy(to, all, len < (size_t)at ? len : (size_t)at);
    return at;
}
