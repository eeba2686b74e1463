/* Each answer of each call with its place, as the header states them, of a routine's check the number of fit questions, and where rows are
 * offered the choice. library/c/places.out has them as written by hand. Tables of no words are handed in as null pointers.
 */
#include <inttypes.h>
#include <stdio.h>
#include <string.h>

#include "ramdulsi.h"

#define ROW RAMDULSI_LIMIT_ROW_WORDS

#define OFFER RAMDULSI_LIMIT_OFFERED_WORDS

/* All that a call may be handed, small and without a no: two types of two fields, two tags, three blocks, two records, two offered rows. */
struct given {
    uint32_t types[2 * ROW], tags[RAMDULSI_LIMIT_TAGS + 1], blocks[3 * ROW], code[6];
    uint32_t allocations[4], memory[8], registers[8], block, offered[(RAMDULSI_LIMIT_OFFERED + 1) * OFFER];
    size_t types_words, tags_words, blocks_words, code_words, allocations_words, memory_words, offered_words;
    uint64_t budget;
};

static struct given whole(void)
{
    struct given g;
    const uint32_t fields[2] = {ramdulsi_type_any(), ramdulsi_type_maybe(1)};
    const uint32_t any[8] = {0};
    const uint32_t reference[8] = {0, 0, ramdulsi_type_ref(1)};
    const uint32_t code[6] = {ramdulsi_code_jump(1), ramdulsi_code_load(3, 2, 1), ramdulsi_code_store(3, 2, 1),
                              ramdulsi_code_jump(2), ramdulsi_code_copy(4, 2), ramdulsi_code_halt()};
    memset(&g, 0, sizeof(g));
    ramdulsi_row_of_type(g.types, 2, fields);
    ramdulsi_row_of_type(g.types + ROW, 2, fields);
    g.tags[1] = 1;
    ramdulsi_row_of_block(g.blocks, 1, reference);
    ramdulsi_row_of_block(g.blocks + ROW, 3, reference);
    ramdulsi_row_of_block(g.blocks + 2 * ROW, 2, any);
    memcpy(g.code, code, sizeof(code));
    ramdulsi_row_of_allocation(g.allocations, 1, 1);
    ramdulsi_row_of_allocation(g.allocations + 2, 3, 1);
    g.memory[2] = 3;
    g.registers[2] = 1;
    memcpy(g.offered + OFFER, reference, sizeof(reference));
    g.offered_words = 2 * OFFER;
    g.types_words = 2 * ROW, g.tags_words = 2, g.blocks_words = 3 * ROW, g.code_words = 6, g.allocations_words = 4, g.memory_words = 8;
    g.budget = 10;
    return g;
}

/* A table as it is handed in. */
static const uint32_t *table(const uint32_t *words, size_t count)
{
    return count == 0 ? NULL : words;
}

#define TABLE(name) table(g.name, g.name##_words), g.name##_words

static void show(const char *what, uint32_t number, uint32_t first, uint32_t second)
{
    printf("%s: %" PRIu32 " at %" PRIu32 ", %" PRIu32 "\n", what, number, first, second);
}

static void check(const char *what, struct given g)
{
    uint32_t verdict[3] = {99, 99, 99};
    uint32_t number = ramdulsi_check(TABLE(types), TABLE(tags), TABLE(blocks), TABLE(code), verdict);
    printf("check, %" PRIu32 " asked, ", verdict[2]);
    show(what, number, verdict[0], verdict[1]);
}

/* The check with an offered list, and the same with the rows laid into the table: both answer alike. */
static void offered(const char *what, struct given g)
{
    uint32_t verdict[3] = {99, 99, 99}, choice[3] = {99, 99, 99}, again[3] = {99, 99, 99}, chosen[3] = {99, 99, 99};
    uint32_t blocks[3 * ROW];
    uint32_t number = ramdulsi_check_offered(TABLE(types), TABLE(tags), TABLE(blocks), TABLE(code), TABLE(offered), verdict, choice);
    uint32_t *own = g.blocks_words == 0 ? NULL : g.blocks;
    memcpy(blocks, g.blocks, sizeof(blocks));
    if (ramdulsi_fill(TABLE(types), TABLE(tags), own, g.blocks_words, TABLE(code), TABLE(offered), again, chosen) != number
        || memcmp(verdict, again, sizeof(again)) != 0 || memcmp(choice, chosen, sizeof(chosen)) != 0) {
        printf("ramdulsi_fill answers otherwise\n");
    }
    printf("offered, %s, choice %" PRIu32 " %" PRIu32 " %" PRIu32 ", %" PRIu32 " asked, ",
           memcmp(blocks, g.blocks, sizeof(blocks)) == 0 ? "table kept" : "table filled", choice[0], choice[1], choice[2], verdict[2]);
    show(what, number, verdict[0], verdict[1]);
}

static void memory(const char *what, struct given g)
{
    uint32_t place[2] = {99, 99};
    uint32_t number = ramdulsi_memory_check(TABLE(types), TABLE(tags), TABLE(allocations), TABLE(memory), place);
    printf("memory check, ");
    show(what, number, place[0], place[1]);
}

static void entry(const char *what, struct given g)
{
    uint32_t place[2] = {99, 99};
    uint32_t number = ramdulsi_entry_check(TABLE(types), TABLE(tags), TABLE(allocations), TABLE(memory), TABLE(blocks), TABLE(code),
                                           g.block, g.registers, place);
    printf("entry check, ");
    show(what, number, place[0], place[1]);
}

static void run(const char *what, struct given g)
{
    uint32_t answer[4] = {99, 99, 99, 99};
    uint32_t number = ramdulsi_run(TABLE(blocks), TABLE(code), g.memory_words == 0 ? NULL : g.memory, g.memory_words, g.block,
                                   g.registers, g.budget, answer);
    printf("run, %" PRIu64 " finished, ", ramdulsi_finished(answer));
    show(what, number, answer[0], answer[1]);
}

typedef void one_call(const char *what, struct given g);

/* The call on what has no no but this one. */
#define WITH(name, change) do { struct given g = whole(); change; call(name, g); } while (0)

static void over_types(one_call *call)
{
    WITH("all well", (void)g);
    WITH("no types", g.types_words = 0);
    WITH("no tags", g.tags_words = 0);
    WITH("a tag too many", g.tags_words = RAMDULSI_LIMIT_TAGS + 1);
    WITH("half a row of types", g.types_words = 13);
    WITH("second type of no fields", g.types[ROW] = 0);
    WITH("second type of an unknown kind", g.types[ROW + 1] = RAMDULSI_NO_WORD);
    WITH("second type marked past its fields", g.types[ROW + 3] = ramdulsi_type_locked(ramdulsi_type_any()));
    WITH("second tag of no type", g.tags[1] = 2);
}

static void over_blocks(one_call *call)
{
    WITH("no blocks", g.blocks_words = 0);
    WITH("no code", g.code_words = 0);
    WITH("second block too long", g.blocks[ROW] = 33);
    WITH("third block past the code", g.code_words = 5);
    WITH("code left over", g.blocks[2 * ROW] = 1);
}

static void over_annotations(one_call *call)
{
    WITH("third block's r7 of an unknown kind", g.blocks[2 * ROW + 8] = RAMDULSI_NO_WORD);
    WITH("third block's r7 marked as a locked field", g.blocks[2 * ROW + 8] = ramdulsi_type_locked(ramdulsi_type_any()));
}

static void over_memory(one_call *call)
{
    WITH("no memory", g.memory_words = 0);
    WITH("no allocations", g.allocations_words = 0);
    WITH("half a row of allocations", g.allocations_words = 3);
    WITH("second record inside the first", g.allocations[2] = 2);
}

static void over_form(one_call *call)
{
    WITH("an unknown opcode", g.code[2] = RAMDULSI_NO_WORD);
    WITH("a halt inside a block", g.code[2] = ramdulsi_code_halt());
    WITH("a jump to no block", g.code[3] = ramdulsi_code_jump(3));
}

static void over_code(one_call *call)
{
    WITH("a load through no reference", g.code[1] = ramdulsi_code_load(3, 0, 1));
    WITH("a load past the record", g.code[1] = ramdulsi_code_load(3, 2, 2));
    WITH("a store to a locked field", g.types[ROW + 2] = ramdulsi_type_locked(g.types[ROW + 2]));
    WITH("a load in an open record through another value",
         (g.blocks[ROW + 6] = ramdulsi_type_ref(1), g.code[1] = ramdulsi_code_store(0, 2, 1), g.code[2] = ramdulsi_code_load(3, 5, 1),
          g.blocks[6] = ramdulsi_type_ref(1)));
    WITH("a store in an open record through another value",
         (g.blocks[ROW + 6] = ramdulsi_type_ref(1), g.code[1] = ramdulsi_code_store(0, 2, 1), g.code[2] = ramdulsi_code_store(3, 5, 1),
          g.blocks[6] = ramdulsi_type_ref(1)));
    WITH("a record open at the end", g.code[2] = ramdulsi_code_store(0, 2, 1));
    WITH("a taken edge that asks for more", g.blocks[2 * ROW + 1] = ramdulsi_type_ref(1));
    WITH("a branch whose taken edge asks for more",
         (g.blocks[2 * ROW + 1] = ramdulsi_type_ref(1), g.code[3] = ramdulsi_code_if_equal(1, 0, 2)));
    WITH("an untaken edge that asks for more",
         (g.blocks[2 * ROW + 1] = ramdulsi_type_ref(1), g.code[3] = ramdulsi_code_if_equal(1, 0, 1)));
    WITH("a branch whose edges are both met", g.code[3] = ramdulsi_code_if_equal(1, 0, 1));
}

/* Rows left blank, by their number; block 1 has need of the second offered row, and so has block 0, which leads to it. */
static void leave_blank(struct given *g, uint32_t row)
{
    ramdulsi_row_of_blank(g->blocks + row * ROW, g->blocks[row * ROW]);
}

static void over_blanks(one_call *call)
{
    WITH("block 1 blank", leave_blank(&g, 1));
    WITH("blocks 1 and 2 blank", (leave_blank(&g, 1), leave_blank(&g, 2)));
    WITH("all blocks blank", (leave_blank(&g, 0), leave_blank(&g, 1), leave_blank(&g, 2)));
    WITH("no block blank, and a list of no whole rows", g.offered_words = 1);
    WITH("block 1 blank, and block 2's r7 too", (leave_blank(&g, 1), g.blocks[2 * ROW + 8] = RAMDULSI_BLANK_WORD));
    WITH("block 1 blank, and a list of no whole rows", (leave_blank(&g, 1), g.offered_words = OFFER + 1));
    WITH("block 1 blank, and a list of nine rows", (leave_blank(&g, 1), g.offered_words = 9 * OFFER));
    WITH("block 1 blank, and the second row marked", (leave_blank(&g, 1), g.offered[OFFER] = ramdulsi_type_locked(ramdulsi_type_any())));
    WITH("block 1 blank, and nothing offered", (leave_blank(&g, 1), g.offered_words = 0));
    WITH("block 1 blank, and its row not offered", (leave_blank(&g, 1), g.offered_words = OFFER));
    WITH("block 2 blank, and an unknown opcode in block 1", (leave_blank(&g, 2), g.code[2] = RAMDULSI_NO_WORD));
}

/* Four blocks that halt, all of them blank. */
static void four_blank(void)
{
    uint32_t types[ROW] = {1}, blocks[4 * ROW], code[4] = {0}, verdict[3], choice[3], number, k;
    for (k = 0; k < 4; k++) {
        ramdulsi_row_of_blank(blocks + k * ROW, 1);
    }
    number = ramdulsi_check_offered(types, ROW, NULL, 0, blocks, 4 * ROW, code, 4, NULL, 0, verdict, choice);
    show("offered, four blocks blank", number, verdict[0], verdict[1]);
}

static void runs(void)
{
    one_call *call = run;
    WITH("all well", (void)g);
    over_blocks(call);
    WITH("no such start block", g.block = 3);
    WITH("no memory", g.memory_words = 0);
    over_form(call);
    WITH("an address past memory", g.registers[2] = 8);
    WITH("a budget of 0", (g.budget = 0, g.block = 1));
    WITH("a budget of 0 and no such start block", (g.budget = 0, g.block = 3));
    WITH("a budget of 2", g.budget = 2);
}

int main(void)
{
    over_types(check), over_blocks(check), over_annotations(check), over_form(check), over_code(check);
    over_types(offered), over_blocks(offered), over_annotations(offered), over_form(offered), over_code(offered), over_blanks(offered);
    four_blank();
    over_types(memory), over_memory(memory);
    over_types(entry), over_memory(entry), over_blocks(entry), over_annotations(entry);
    one_call *call = entry;
    WITH("no such start block", g.block = 3);
    WITH("r2 no reference", g.registers[2] = 2);
    WITH("a field of no meaning, which it does not ask about", g.memory[2] = 2);
    call = memory;
    WITH("the first record's second field of no meaning", g.memory[2] = 2);
    WITH("the second record's second field of no meaning", g.memory[4] = 2);
    runs();
    return 0;
}
