/* Writes a word of each function of the header that makes one, with the call that made it, and the name of each answer. library/c/words.out
 * has them as written by hand.
 * It is C and C++, so that the header is tried as both.
 */
#include <inttypes.h>
#include <stdio.h>
#include <string.h>

#include "ramdulsi.h"

#define SHOW(call) printf("%08" PRIx32 " %s\n", call, #call)

static void dependencies(void)
{
    SHOW(ramdulsi_of_field(0));
    SHOW(ramdulsi_of_field(7));
    SHOW(ramdulsi_of_field(8));
    SHOW(ramdulsi_of_register(7));
    SHOW(ramdulsi_of_register(8));
    SHOW(ramdulsi_of_constant(0));
    SHOW(ramdulsi_of_constant(247));
    SHOW(ramdulsi_of_constant(248));
    SHOW(ramdulsi_of_constant(0xffffffff));
}

static void types(void)
{
    SHOW(ramdulsi_type(8, 63, 1, 255));
    SHOW(ramdulsi_type(128, 0, 0, 0));
    SHOW(ramdulsi_type(1, 256, 0, 0));
    SHOW(ramdulsi_type(3, 0, 256, 0));
    SHOW(ramdulsi_type(6, 0, 0, 256));
    SHOW(ramdulsi_type_any());
    SHOW(ramdulsi_type_ref(2));
    SHOW(ramdulsi_type_maybe(63));
    SHOW(ramdulsi_type_tagged(ramdulsi_of_field(1)));
    SHOW(ramdulsi_type_tagged(ramdulsi_of_constant(248)));
    SHOW(ramdulsi_type_present(ramdulsi_of_register(2)));
    SHOW(ramdulsi_type_same(ramdulsi_of_constant(1)));
    SHOW(ramdulsi_type_run(2, ramdulsi_of_register(3), ramdulsi_of_register(4)));
    SHOW(ramdulsi_type_from(2, ramdulsi_of_constant(1), ramdulsi_of_constant(7)));
    SHOW(ramdulsi_type_in(2, ramdulsi_of_register(5), ramdulsi_of_register(8)));
    SHOW(ramdulsi_type_in(2, ramdulsi_of_register(5), ramdulsi_of_register(6)));
    SHOW(ramdulsi_type_locked(ramdulsi_type_any()));
    SHOW(ramdulsi_type_locked(ramdulsi_type_tagged(ramdulsi_of_field(1))));
    SHOW(ramdulsi_type_locked(ramdulsi_type_ref(256)));
}

static void arithmetic(void)
{
    SHOW(ramdulsi_code(12, 7, 6, 65535));
    SHOW(ramdulsi_code(256, 0, 0, 0));
    SHOW(ramdulsi_code(8, 8, 0, 0));
    SHOW(ramdulsi_code(8, 0, 8, 0));
    SHOW(ramdulsi_code(8, 0, 0, 65536));
    SHOW(ramdulsi_code_constant(1, 65535));
    SHOW(ramdulsi_code_copy(2, 3));
    SHOW(ramdulsi_code_add(1, 2, 3));
    SHOW(ramdulsi_code_add(1, 2, 8));
    SHOW(ramdulsi_code_subtract(4, 5, 6));
    SHOW(ramdulsi_code_subtract(4, 5, 8));
    SHOW(ramdulsi_code_multiply(7, 0, 1));
    SHOW(ramdulsi_code_multiply(7, 0, 8));
    SHOW(ramdulsi_code_divide(5, 5, 86));
    SHOW(ramdulsi_code_divide(5, 5, 0));
    SHOW(ramdulsi_code_move(1, 2, 3));
    SHOW(ramdulsi_code_move(1, 2, -1));
    SHOW(ramdulsi_code_move(1, 2, -32768));
    SHOW(ramdulsi_code_move(1, 2, 32767));
    SHOW(ramdulsi_code_move(1, 2, -32769));
    SHOW(ramdulsi_code_move(1, 2, 32768));
}

static void memory_and_blocks(void)
{
    SHOW(ramdulsi_code_load(2, 1, 0));
    SHOW(ramdulsi_code_store(7, 1, 1));
    SHOW(ramdulsi_code_jump(255));
    SHOW(ramdulsi_code_if_equal(3, 1, 2));
    SHOW(ramdulsi_code_if_equal(3, 256, 2));
    SHOW(ramdulsi_code_if_equal(3, 1, 256));
    SHOW(ramdulsi_code_if_less(3, 4, 255));
    SHOW(ramdulsi_code_halt());
}

static void finished(void)
{
    const uint32_t answer[4] = {0xffffffff, 0xffffffff, 2, 1};
    printf("%" PRIu64 " ramdulsi_finished(low 2, high 1)\n", ramdulsi_finished(answer));
}

static void show_row(const char *name, const uint32_t *row, size_t words)
{
    printf("%s:", name);
    for (size_t k = 0; k < words; k++) {
        printf(" %" PRIx32, row[k]);
    }
    printf("\n");
}

/* The rows are filled before, so that a word left out is seen. */
static void rows(void)
{
    const uint32_t eight[8] = {1, 2, 3, 4, 5, 6, 7, 8};
    uint32_t row[9] = {99, 99, 99, 99, 99, 99, 99, 99, 99};
    ramdulsi_row_of_type(row, 2, eight);
    show_row("ramdulsi_row_of_type, 2 fields", row, 9);
    ramdulsi_row_of_type(row, 8, eight);
    show_row("ramdulsi_row_of_type, 8 fields", row, 9);
    ramdulsi_row_of_type(row, 9, NULL);
    show_row("ramdulsi_row_of_type, 9 fields", row, 9);
    ramdulsi_row_of_block(row, 32, eight);
    show_row("ramdulsi_row_of_block", row, 9);
    ramdulsi_row_of_blank(row, 31);
    show_row("ramdulsi_row_of_blank", row, 9);
    ramdulsi_row_of_allocation(row, 16383, 63);
    show_row("ramdulsi_row_of_allocation", row, 2);
}

/* Every number that has a name, looked for far past the last; then some that have none. */
static void show_names(const char *function, const char *(*name_of)(uint32_t))
{
    const uint32_t none[] = {22, 39, 41, 0xffffffff};
    for (uint32_t number = 0; number < 70000; number++) {
        if (strcmp(name_of(number), "unknown") != 0) {
            printf("%s: %" PRIu32 " %s\n", function, number, name_of(number));
        }
    }
    for (size_t k = 0; k < sizeof(none) / sizeof(none[0]); k++) {
        printf("%s, none: %" PRIu32 " %s\n", function, none[k], name_of(none[k]));
    }
}

static void names(void)
{
    show_names("ramdulsi_name_of_check", ramdulsi_name_of_check);
    show_names("ramdulsi_name_of_run", ramdulsi_name_of_run);
}

int main(void)
{
    dependencies();
    types();
    arithmetic();
    memory_and_blocks();
    rows();
    finished();
    names();
    return 0;
}
