/* Each call on a thread with just the stack that the header states for it. Below the stack lies a page that no one may touch, so a call
 * that needs more ends the program by a fault. The tables are as long as they may be, and memory is full of records.
 */
#include <pthread.h>
#include <stdio.h>
#include <string.h>
#include <sys/mman.h>

#include "ramdulsi.h"

#define PAGE 4096u
#define WORDS(table) table, sizeof(table) / sizeof((table)[0])
#define ROWS(table) (table)[0], sizeof(table) / sizeof((table)[0][0])

#define BLOCKS RAMDULSI_LIMIT_BLOCKS
#define LENGTH RAMDULSI_LIMIT_BLOCK_LENGTH
/* of eight words each, from address 1 on */
#define RECORDS 2047u

static uint32_t types[RAMDULSI_LIMIT_TYPES][RAMDULSI_LIMIT_ROW_WORDS];
static uint32_t tags[RAMDULSI_LIMIT_TAGS];
static uint32_t blocks[BLOCKS][RAMDULSI_LIMIT_ROW_WORDS];
static uint32_t code[RAMDULSI_LIMIT_CODE];
static uint32_t allocations[RECORDS][RAMDULSI_LIMIT_ALLOCATION_WORDS];
static uint32_t memory[RAMDULSI_LIMIT_MEMORY];

/* Every type has eight fields of any word; every block loads and stores through r0, a reference to type 0, and goes to the next. */
static void fill(void)
{
    const uint32_t any[8] = {0};
    const uint32_t first_is_reference[8] = {ramdulsi_type_ref(0)};
    for (uint32_t t = 0; t < RAMDULSI_LIMIT_TYPES; t++)
        ramdulsi_row_of_type(types[t], RAMDULSI_LIMIT_FIELDS, any);
    for (uint32_t b = 0; b < BLOCKS; b++) {
        uint32_t *part = code + b * LENGTH;
        ramdulsi_row_of_block(blocks[b], LENGTH, first_is_reference);
        for (uint32_t j = 0; j < LENGTH - 1; j++)
            part[j] = j % 2 == 0 ? ramdulsi_code_load(1 + j % 7, 0, j % 8) : ramdulsi_code_store(1 + j % 7, 0, j % 8);
        part[LENGTH - 1] = b + 1 < BLOCKS ? ramdulsi_code_jump(b + 1) : ramdulsi_code_halt();
    }
    for (uint32_t k = 0; k < RECORDS; k++)
        ramdulsi_row_of_allocation(allocations[k], 1 + 8 * k, 0);
}

static void *check(void *given)
{
    uint32_t verdict[3];
    *(uint32_t *)given = ramdulsi_check(ROWS(types), WORDS(tags), ROWS(blocks), WORDS(code), verdict);
    return NULL;
}

/* Three rows are left blank, and of eight that are offered the last alone is what they were: every choice before it is looked at. */
static uint32_t offered[RAMDULSI_LIMIT_OFFERED][RAMDULSI_LIMIT_OFFERED_WORDS];

static void *check_offered(void *given)
{
    uint32_t verdict[3], choice[3];
    offered[RAMDULSI_LIMIT_OFFERED - 1][0] = ramdulsi_type_ref(0);
    for (uint32_t k = 0; k < RAMDULSI_LIMIT_BLANKS; k++)
        ramdulsi_row_of_blank(blocks[k * 127], LENGTH);
    *(uint32_t *)given = ramdulsi_check_offered(ROWS(types), WORDS(tags), ROWS(blocks), WORDS(code), ROWS(offered), verdict, choice);
    return NULL;
}

/* The same rows, which are whole after it. */
static void *fill_rows(void *given)
{
    uint32_t verdict[3], choice[3];
    *(uint32_t *)given = ramdulsi_fill(ROWS(types), WORDS(tags), ROWS(blocks), WORDS(code), ROWS(offered), verdict, choice);
    return NULL;
}

static void *memory_check(void *given)
{
    uint32_t place[2];
    *(uint32_t *)given = ramdulsi_memory_check(ROWS(types), WORDS(tags), ROWS(allocations), WORDS(memory), place);
    return NULL;
}

static void *entry_check(void *given)
{
    uint32_t place[2];
    uint32_t registers[8] = {1, 0, 0, 0, 0, 0, 0, 0};
    *(uint32_t *)given = ramdulsi_entry_check(ROWS(types), WORDS(tags), ROWS(allocations), WORDS(memory), ROWS(blocks), WORDS(code),
                                              0, registers, place);
    return NULL;
}

static void *run(void *given)
{
    uint32_t answer[4];
    uint32_t registers[8] = {1, 0, 0, 0, 0, 0, 0, 0};
    *(uint32_t *)given = ramdulsi_run(ROWS(blocks), WORDS(code), WORDS(memory), 0, registers, 1000, answer);
    return NULL;
}

/* 0 where the call gave 0 on a thread with so many bytes of stack. */
static int on_stack(const char *name, void *(*call)(void *), size_t bytes)
{
    char *region = mmap(NULL, PAGE + bytes, PROT_READ | PROT_WRITE, MAP_PRIVATE | MAP_ANONYMOUS, -1, 0);
    if (region == MAP_FAILED || mprotect(region, PAGE, PROT_NONE) != 0)
        return 1;
    pthread_attr_t attributes;
    pthread_t thread;
    uint32_t given = 1000;
    pthread_attr_init(&attributes);
    if (pthread_attr_setstack(&attributes, region + PAGE, bytes) != 0 || pthread_create(&thread, &attributes, call, &given) != 0)
        return 1;
    pthread_join(thread, NULL);
    pthread_attr_destroy(&attributes);
    munmap(region, PAGE + bytes);
    printf("%s: %u on %zu bytes of stack\n", name, (unsigned)given, bytes);
    return given != 0;
}

int main(void)
{
    fill();
    return on_stack("check", check, RAMDULSI_STACK) || on_stack("check with offered rows", check_offered, RAMDULSI_STACK)
        || on_stack("fill", fill_rows, RAMDULSI_STACK) || on_stack("run", run, RAMDULSI_STACK)
        || on_stack("memory check", memory_check, RAMDULSI_STACK_CHECKING_MEMORY)
        || on_stack("entry check", entry_check, RAMDULSI_STACK_CHECKING_MEMORY);
}
