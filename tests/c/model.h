/* A plain model of boards, cells and records, with which random_calls.c compares each answer: rows, what each is doing,
 * births, waits, registers and bytes. It is written from ptrace(2), waitid(2) and pukzarn.h, apart from the library. */
#ifndef MODEL_H
#define MODEL_H

#include <pukzarn.h>

enum { MODEL_ROWS = 6, MODEL_PAGES = 4, MODEL_PAGE = 4096 };

/* The only pages that are ever mapped: two neighbours, one apart, and the last of all. */
extern const uint64_t model_pages[MODEL_PAGES];

struct model_record {
    uint32_t number;
    struct pukzarn_stop stop;
    struct pukzarn_regs regs;
    int mapped[MODEL_PAGES];
    unsigned char bytes[MODEL_PAGES][MODEL_PAGE];
};

struct model_row {
    struct pukzarn_row ids;
    int born;
    int phase;   /* of a row that is born: PUKZARN_RUNNING to PUKZARN_REAPED */
    int in_hand; /* of cells: it runs, and is taken up */
    uint32_t status;
    uint32_t tracer;
    struct pukzarn_restart restart; /* the last one */
    struct model_record record;     /* its number is that of the last stop */
};

/* The rows of a board, or of cells. */
struct model {
    uint32_t count;
    struct model_row rows[MODEL_ROWS];
};

/* What a wait asks for. */
struct model_wait {
    int all;
    uint32_t tid; /* 0: by its process group, unless it asks for all */
    uint32_t pgid;
    int deaths;
    int keeps;
};

int model_is_stop(const struct pukzarn_stop *stop);
int model_is_death(uint32_t status);

/* Each answers what the call of pukzarn.h answers. */
int model_open(struct model *model, const struct pukzarn_row *rows, size_t count, uint32_t *faulty);
struct pukzarn_state model_state(const struct model *model, uint32_t row);
int model_publish(struct model *model, uint32_t row, const struct pukzarn_stop *stop, uint32_t *number);
int model_exit(struct model *model, uint32_t row, uint32_t status);
void model_claim(struct model *model, uint32_t row, uint32_t tracer);
void model_resume(struct model *model, uint32_t row, const struct pukzarn_restart *restart);
int model_take_up(struct model *model, uint32_t row, struct pukzarn_restart *restart);

/* What a wait asks for by waitid's and by waitpid's arguments: 0, or -EINVAL. */
int model_waitid(uint32_t idtype, int32_t id, uint32_t options, struct model_wait *wait);
int model_waitpid(int32_t pid, uint32_t options, struct model_wait *wait);

/* How many rows a wait may be answered, with the rows; 0; or -ECHILD. */
int model_waitable(const struct model *model, const struct model_wait *wait, uint32_t rows[MODEL_ROWS]);

/* The calls on a record. */
int model_map(struct model_record *record, uint64_t addr);
long model_read(struct model_record *record, uint64_t addr, unsigned char *to, size_t len);
int model_write(struct model_record *record, uint64_t addr, const unsigned char *from, size_t len);
uint64_t model_message(const struct model_record *record);
long model_information(const struct model_record *record, unsigned char *to, size_t len);

#endif
