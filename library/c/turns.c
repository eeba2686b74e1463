/* Checks three routines, one of which has rows chosen for annotations that it lacks, queues them by what their checks cost, and lets them
 * take turns over two plots, block by block.
 */
#include <inttypes.h>
#include <stdio.h>
#include <stdlib.h>
#include <string.h>

#include "ramdulsi.h"

#define WORDS(table) table, sizeof(table) / sizeof((table)[0])
#define ROWS(table) (table)[0], sizeof(table) / sizeof((table)[0][0])

/* ---- plots, and the records that they lead to */

/* raw (weight, moisture), locked: it stays as it was weighed; corrected (weight); plot (stage, pointer that the stage tells of) */
enum { RAW, CORRECTED, PLOT, TYPES };
enum { WEIGHT = 0, MOISTURE = 1, STAGE = 0, POINTER = 1 };

/* where the records start: a corrected plot, a raw one, and an empty record for the second plot's corrected weight */
enum { FIRST_PLOT = 1, SECOND_PLOT = 3, FIRST_CORRECTED = 5, SECOND_RAW = 6, SECOND_CORRECTED = 8 };

static uint32_t types[TYPES][RAMDULSI_LIMIT_ROW_WORDS];
/* stage 0 is raw, stage 1 corrected */
static const uint32_t tags[] = {RAW, CORRECTED};
static uint32_t allocations[5][RAMDULSI_LIMIT_ALLOCATION_WORDS];
static uint32_t memory[] = {0, 1, FIRST_CORRECTED, 0, SECOND_RAW, 8000, 8600, 22, 0};

static void lay_out(void)
{
    const uint32_t any = ramdulsi_type_any();
    const uint32_t raw[] = {ramdulsi_type_locked(any), ramdulsi_type_locked(any)};
    const uint32_t corrected[] = {any};
    const uint32_t plot[] = {any, ramdulsi_type_tagged(ramdulsi_of_field(STAGE))};
    ramdulsi_row_of_type(types[RAW], 2, raw);
    ramdulsi_row_of_type(types[CORRECTED], 1, corrected);
    ramdulsi_row_of_type(types[PLOT], 2, plot);

    ramdulsi_row_of_allocation(allocations[0], FIRST_PLOT, PLOT);
    ramdulsi_row_of_allocation(allocations[1], SECOND_PLOT, PLOT);
    ramdulsi_row_of_allocation(allocations[2], FIRST_CORRECTED, CORRECTED);
    ramdulsi_row_of_allocation(allocations[3], SECOND_RAW, RAW);
    ramdulsi_row_of_allocation(allocations[4], SECOND_CORRECTED, CORRECTED);
}

/* ---- the routines */

/* A routine with room for its tables, what its check cost, and where it stands between its turns. */
struct routine {
    const char *name;
    uint32_t blocks[4][RAMDULSI_LIMIT_ROW_WORDS];
    uint32_t code[16];
    size_t blocks_words, code_words;
    uint32_t fit_questions;
    uint32_t block, registers[8], number;
};

#define TABLES(r) (r)->blocks[0], (r)->blocks_words, (r)->code, (r)->code_words

static void keep(struct routine *r, uint32_t blocks, const uint32_t *code, size_t code_words)
{
    r->blocks_words = blocks * RAMDULSI_LIMIT_ROW_WORDS;
    r->code_words = code_words;
    memcpy(r->code, code, code_words * sizeof(code[0]));
}

/* Correction and ranking have four blocks: the plot is looked at; it is not for this routine; its pointer is looked at; it is worked on. */
enum { START, PASS_OVER, POINTED, WORK, BLOCKS };

/* r1 is the plot, r3 its pointer, r4 the corrected record. */
static void write_correction(struct routine *r)
{
    const uint32_t any = ramdulsi_type_any(), plot = ramdulsi_type_ref(PLOT), corrected = ramdulsi_type_ref(CORRECTED);
    const uint32_t at_start[8] = {any, plot, any, any, corrected, any, any, any};
    const uint32_t nothing[8] = {any, any, any, any, any, any, any, any};
    const uint32_t pointed[8] = {any, plot, any, ramdulsi_type_tagged(ramdulsi_of_constant(0)), corrected, any, any, any};
    const uint32_t work[8] = {any, plot, any, ramdulsi_type_ref(RAW), corrected, any, any, any};
    const uint32_t code[] = {
        /* START: a raw plot goes on */
        ramdulsi_code_load(2, 1, STAGE),
        ramdulsi_code_load(3, 1, POINTER),
        ramdulsi_code_if_equal(2, 0, POINTED),
        /* PASS_OVER */
        ramdulsi_code_halt(),
        /* POINTED: no pointer, no correction */
        ramdulsi_code_if_equal(3, 0, PASS_OVER),
        /* WORK: the weight times the dry share over 86 into the corrected record; then stage and pointer in one block */
        ramdulsi_code_load(5, 3, WEIGHT),
        ramdulsi_code_load(6, 3, MOISTURE),
        ramdulsi_code_constant(7, 100),
        ramdulsi_code_subtract(6, 7, 6),
        ramdulsi_code_multiply(5, 5, 6),
        ramdulsi_code_divide(5, 5, 86),
        ramdulsi_code_store(5, 4, WEIGHT),
        ramdulsi_code_constant(7, 1),
        ramdulsi_code_store(7, 1, STAGE),
        ramdulsi_code_store(4, 1, POINTER),
        ramdulsi_code_halt()};
    ramdulsi_row_of_block(r->blocks[START], 3, at_start);
    ramdulsi_row_of_block(r->blocks[PASS_OVER], 1, nothing);
    ramdulsi_row_of_block(r->blocks[POINTED], 1, pointed);
    ramdulsi_row_of_block(r->blocks[WORK], 11, work);
    keep(r, BLOCKS, WORDS(code));
}

/* r1 is the plot, r3 its pointer; r4 gets the weight. It is an older routine: what its last two blocks want was not written down. */
static void write_ranking(struct routine *r)
{
    const uint32_t any = ramdulsi_type_any();
    const uint32_t at_start[8] = {any, ramdulsi_type_ref(PLOT), any, any, any, any, any, any};
    const uint32_t nothing[8] = {any, any, any, any, any, any, any, any};
    const uint32_t code[] = {
        /* START: a corrected plot goes on */
        ramdulsi_code_load(2, 1, STAGE),
        ramdulsi_code_load(3, 1, POINTER),
        ramdulsi_code_if_equal(2, 1, POINTED),
        /* PASS_OVER */
        ramdulsi_code_halt(),
        /* POINTED */
        ramdulsi_code_if_equal(3, 0, PASS_OVER),
        /* WORK */
        ramdulsi_code_load(4, 3, WEIGHT),
        ramdulsi_code_halt()};
    ramdulsi_row_of_block(r->blocks[START], 3, at_start);
    ramdulsi_row_of_block(r->blocks[PASS_OVER], 1, nothing);
    ramdulsi_row_of_blank(r->blocks[POINTED], 1);
    ramdulsi_row_of_blank(r->blocks[WORK], 2);
    keep(r, BLOCKS, WORDS(code));
}

/* r1 is the plot, which loses its pointer: that may be 0 at any stage. */
static void write_withdrawal(struct routine *r)
{
    const uint32_t any = ramdulsi_type_any();
    const uint32_t at_start[8] = {any, ramdulsi_type_ref(PLOT), any, any, any, any, any, any};
    const uint32_t code[] = {ramdulsi_code_constant(2, 0), ramdulsi_code_store(2, 1, POINTER), ramdulsi_code_halt()};
    ramdulsi_row_of_block(r->blocks[START], 3, at_start);
    keep(r, 1, WORDS(code));
}

/* ---- checks and turns */

static void must(const char *what, const char *name, uint32_t number, const uint32_t place[2])
{
    printf("%s%s: %" PRIu32 " at %" PRIu32 ", %" PRIu32 "\n", what, name, number, place[0], place[1]);
    if (number != RAMDULSI_ANSWER_PASSED) {
        exit(1);
    }
}

/* Offers rows that routines over plots often want, of r3 alone: a raw record, a pointer to one that may be 0, and the same of a corrected
 * record. Where several would do, the first of them is taken.
 */
static void fill(struct routine *r)
{
    const uint32_t at_r3[] = {ramdulsi_type_ref(RAW), ramdulsi_type_tagged(ramdulsi_of_constant(0)),
                              ramdulsi_type_ref(CORRECTED), ramdulsi_type_tagged(ramdulsi_of_constant(1))};
    uint32_t offered[4][RAMDULSI_LIMIT_OFFERED_WORDS] = {{0}};
    uint32_t verdict[3], choice[3], number;
    for (size_t k = 0; k < 4; k++) {
        offered[k][3] = at_r3[k];
    }
    number = ramdulsi_fill(ROWS(types), WORDS(tags), TABLES(r), ROWS(offered), verdict, choice);
    must("rows chosen for the ", r->name, number, verdict);
    printf("%s: block %d takes row %" PRIu32 ", block %d row %" PRIu32 "\n", r->name, POINTED, choice[0], WORK, choice[1]);
}

static void check(struct routine *r)
{
    uint32_t verdict[3];
    must("check of the ", r->name, ramdulsi_check(ROWS(types), WORDS(tags), TABLES(r), verdict), verdict);
    r->fit_questions = verdict[2];
}

/* Cheapest first. By name where two cost the same, so that the order is one on every machine. */
static int by_cost(const void *left, const void *right)
{
    const struct routine *a = *(struct routine *const *)left, *b = *(struct routine *const *)right;
    if (a->fit_questions != b->fit_questions) {
        return a->fit_questions < b->fit_questions ? -1 : 1;
    }
    return strcmp(a->name, b->name);
}

/* The order for every later loading, when the routines are checked again: no cheap one waits for a costly one, so most are ready soon. */
static void order(struct routine **queue, size_t count)
{
    qsort(queue, count, sizeof(queue[0]), by_cost);
    for (size_t k = 0; k < count; k++) {
        printf("queue: %s, %" PRIu32 " fit questions\n", queue[k]->name, queue[k]->fit_questions);
    }
}

static void check_memory(const char *what)
{
    uint32_t place[2];
    must(what, "", ramdulsi_memory_check(ROWS(types), WORDS(tags), ROWS(allocations), WORDS(memory), place), place);
}

static void check_entry(const struct routine *r)
{
    uint32_t place[2];
    uint32_t number = ramdulsi_entry_check(ROWS(types), WORDS(tags), ROWS(allocations), WORDS(memory), TABLES(r), r->block, r->registers,
                                           place);
    must("entry check of the ", r->name, number, place);
}

/* A turn of one block; whether the routine goes on. A halted routine gets none. */
static int turn(struct routine *r)
{
    uint32_t answer[4];
    if (r->number != RAMDULSI_ANSWER_PAUSED) {
        return 0;
    }
    r->number = ramdulsi_run(TABLES(r), WORDS(memory), r->block, r->registers, 1, answer);
    r->block = answer[0];
    printf("%s: %" PRIu32 " at block %" PRIu32 ", index %" PRIu32 "\n", r->name, r->number, answer[0], answer[1]);
    return r->number == RAMDULSI_ANSWER_PAUSED;
}

int main(void)
{
    struct routine correction = {.name = "correction", .block = START, .number = RAMDULSI_ANSWER_PAUSED};
    struct routine ranking = {.name = "ranking", .block = START, .number = RAMDULSI_ANSWER_PAUSED};
    struct routine withdrawal = {.name = "withdrawal", .block = START, .number = RAMDULSI_ANSWER_PAUSED};
    struct routine *queue[] = {&correction, &ranking, &withdrawal};
    const size_t count = sizeof(queue) / sizeof(queue[0]);
    int going;
    lay_out();
    write_correction(&correction);
    write_ranking(&ranking);
    write_withdrawal(&withdrawal);
    correction.registers[1] = SECOND_PLOT;
    correction.registers[4] = SECOND_CORRECTED;
    ranking.registers[1] = SECOND_PLOT;
    withdrawal.registers[1] = FIRST_PLOT;

    /* from here on the ranking's table is whole, and every call takes it */
    fill(&ranking);
    for (size_t k = 0; k < count; k++) {
        check(queue[k]);
    }
    order(queue, count);
    check_memory("memory check");
    for (size_t k = 0; k < count; k++) {
        check_entry(queue[k]);
    }
    do {
        going = 0;
        for (size_t k = 0; k < count; k++) {
            going += turn(queue[k]);
        }
    } while (going > 0);
    check_memory("memory check after the turns");
    printf("first plot: stage %" PRIu32 ", pointer %" PRIu32 "\n", memory[FIRST_PLOT + STAGE], memory[FIRST_PLOT + POINTER]);
    printf("second plot: stage %" PRIu32 ", weight %" PRIu32 "\n", memory[SECOND_PLOT + STAGE], memory[memory[SECOND_PLOT + POINTER]]);
    return 0;
}
