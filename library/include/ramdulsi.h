/* Ramdulsi for C and C++: the six calls, the words that their tables are made of, and the numbers that they answer.
 *
 * To write routines read docs/MACHINE.md: how a routine is checked, with a tutorial in section 7. To see what an answer means, put the
 * request to the program as `ramdulsi --words`, which answers in words too; docs/REFUSALS.md has them all, with the usual causes. For
 * messages of your own, ramdulsi_name_of_check and ramdulsi_name_of_run give an answer's name.
 *
 * A table is a pointer to 32-bit words and their number. A call writes no table but a run its memory and ramdulsi_fill its blocks, and no
 * call keeps a pointer.
 *   Lengths    Each argument that ends in _words is a number of words, not of rows: types_words is 9 times the number of types,
 *              blocks_words 9 times the number of blocks, allocations_words 2 times the number of records, offered_words 8 times the
 *              number of offered rows.
 *   Pointers   A table's pointer (memory is one) may be null where its number of words is 0; the call answers as for any table of that
 *              length. The pointers verdict, choice, place, answer and registers must not be null, and have the words that the call's
 *              comment names. Every other pointer is to as many words as the number beside it says, on the boundary of a uint32_t.
 *   Overlap    Words that a call writes (a run's memory and registers, the blocks of ramdulsi_fill, verdict, choice, place, answer) must
 *              not be those behind another of its pointers.
 *   Stack      A call needs RAMDULSI_STACK or RAMDULSI_STACK_CHECKING_MEMORY bytes, the caller's own frames beside them.
 *   Threads    No call has state, so calls on different memory may be made at the same time.
 *   Budgets    A routine may go round for ever, and a run ends only by a halt, a refusal or its budget: such a routine with a budget of
 *              2^64 - 1 runs for ever, as far as a caller can wait. Give a budget that your time allows, say a few thousand blocks (a block
 *              has at most 32 instructions), and resume where the answer is 40. A small one loses nothing: the turns of a routine that
 *              runs alone do together what one run would.
 * Nothing else is asked of a caller: any lengths and any words are allowed.
 *
 * A routine in turns of at most 1,000 blocks, until it does not go on; block and registers are at first those of its start:
 *
 *     uint64_t finished = 0;
 *     uint32_t number, answer[4];
 *     do {
 *         number = ramdulsi_run(blocks, blocks_words, code, code_words, memory, memory_words, block, registers, 1000, answer);
 *         finished += ramdulsi_finished(answer);
 *         block = answer[0];
 *         // here other routines have their turns, or you give up when your time is over
 *     } while (number == RAMDULSI_ANSWER_PAUSED);
 *
 * Then number is RAMDULSI_ANSWER_HALTED, or that of a refusal, whose place is answer[0] and answer[1].
 *
 * The target of a jump or branch is a block's number, counted from 0. A block put in raises the numbers of all blocks after it, so every
 * target that means one of these must be raised too, and the block to start at. With an enum of the blocks, in their order, the compiler
 * counts them: library/c/turns.c has one.
 *
 * Each call returns the number of the first question with a no, and 0 where there is none; docs/REFUSALS.md has the numbers in words.
 * What each call promises is proved of the code behind it: the answer is the one that the definitions in crates/model/specs give for the
 * words handed in. The functions below that make words are plain C and not proved; a wrong word is for the checks to refuse.
 *
 * Together the calls promise this. Let memory, every routine and every routine's start block and registers have passed their checks over
 * the same types, tags and allocations. Then run the routines in any turns with any budgets, while nobody else writes memory: each from its
 * start, or from what its own last turn returned if that was 40. A routine that has halted (0) gets no more turns, unless from its start
 * block and start registers, or others that pass the entry check. Every turn returns 0 or 40, touches only fields of allocated records, and
 * after every block leaves in type all records, and the registers of every routine that has not halted; every word of memory outside the
 * records stays as it was. A locked field is never written: its word stays as it was inside a block too.
 */
#ifndef RAMDULSI_H
#define RAMDULSI_H

#include <stddef.h>
#include <stdint.h>

#ifdef __cplusplus
extern "C" {
#endif

/* The version of this header, and of the archive that it comes with. */
#define RAMDULSI_VERSION "0.7.0"
#define RAMDULSI_VERSION_MAJOR 0
#define RAMDULSI_VERSION_MINOR 7
#define RAMDULSI_VERSION_PATCH 0

/* Bytes of stack that a thread needs for ramdulsi_check, ramdulsi_check_offered, ramdulsi_fill and ramdulsi_run, and for
 * ramdulsi_memory_check and ramdulsi_entry_check, which keep a table of 64 KiB there.
 */
#define RAMDULSI_STACK 16384u
#define RAMDULSI_STACK_CHECKING_MEMORY 81920u

/* ---- answers: what a call returns */

/* no question of a check has a no; of a run: it carried out a halt */
#define RAMDULSI_ANSWER_PASSED 0u
#define RAMDULSI_ANSWER_HALTED 0u
/* refusals over tables */
#define RAMDULSI_ANSWER_TABLE_LENGTH 1u
#define RAMDULSI_ANSWER_FIELD_COUNT 2u
#define RAMDULSI_ANSWER_FIELD_TYPE 3u
#define RAMDULSI_ANSWER_TAG 4u
#define RAMDULSI_ANSWER_BLOCK_LENGTH 5u
#define RAMDULSI_ANSWER_ANNOTATION 6u
/* refusals over an instruction */
#define RAMDULSI_ANSWER_INSTRUCTION 7u
#define RAMDULSI_ANSWER_BLOCK_END 8u
#define RAMDULSI_ANSWER_TARGET 9u
#define RAMDULSI_ANSWER_REFERENCE 10u
#define RAMDULSI_ANSWER_OFFSET 11u
#define RAMDULSI_ANSWER_OTHER_RECORD 12u
#define RAMDULSI_ANSWER_OPEN_RECORD 13u
#define RAMDULSI_ANSWER_TAKEN_EDGE 14u
#define RAMDULSI_ANSWER_UNTAKEN_EDGE 15u
/* refusals over a start, memory and registers */
#define RAMDULSI_ANSWER_START_BLOCK 16u
#define RAMDULSI_ANSWER_MEMORY_LENGTH 17u
#define RAMDULSI_ANSWER_ADDRESS 18u
#define RAMDULSI_ANSWER_ALLOCATION 19u
#define RAMDULSI_ANSWER_FIELD 20u
#define RAMDULSI_ANSWER_REGISTER 21u
/* no call answers 22, and none will */
/* refusal of a store to a locked field */
#define RAMDULSI_ANSWER_LOCKED_FIELD 23u
/* refusals where annotations are left blank: over what may be blank and what is offered, and since no choice is accepted */
#define RAMDULSI_ANSWER_OFFERED_ROWS 32u
#define RAMDULSI_ANSWER_NO_CHOICE 33u
/* a run's budget is finished, and the routine goes on */
#define RAMDULSI_ANSWER_PAUSED 40u

/* The name of what a check returned, as docs/REFUSALS.md has it; "unknown" where the number is no answer, and never null. */
static inline const char *ramdulsi_name_of_check(uint32_t number)
{
    switch (number) {
    case RAMDULSI_ANSWER_PASSED: return "passed";
    case RAMDULSI_ANSWER_TABLE_LENGTH: return "table length";
    case RAMDULSI_ANSWER_FIELD_COUNT: return "field count";
    case RAMDULSI_ANSWER_FIELD_TYPE: return "field type";
    case RAMDULSI_ANSWER_TAG: return "tag";
    case RAMDULSI_ANSWER_BLOCK_LENGTH: return "block length";
    case RAMDULSI_ANSWER_ANNOTATION: return "annotation";
    case RAMDULSI_ANSWER_INSTRUCTION: return "instruction";
    case RAMDULSI_ANSWER_BLOCK_END: return "block end";
    case RAMDULSI_ANSWER_TARGET: return "target";
    case RAMDULSI_ANSWER_REFERENCE: return "reference";
    case RAMDULSI_ANSWER_OFFSET: return "offset";
    case RAMDULSI_ANSWER_OTHER_RECORD: return "other record";
    case RAMDULSI_ANSWER_OPEN_RECORD: return "open record";
    case RAMDULSI_ANSWER_TAKEN_EDGE: return "taken edge";
    case RAMDULSI_ANSWER_UNTAKEN_EDGE: return "untaken edge";
    case RAMDULSI_ANSWER_START_BLOCK: return "start block";
    case RAMDULSI_ANSWER_MEMORY_LENGTH: return "memory length";
    case RAMDULSI_ANSWER_ADDRESS: return "address";
    case RAMDULSI_ANSWER_ALLOCATION: return "allocation";
    case RAMDULSI_ANSWER_FIELD: return "field";
    case RAMDULSI_ANSWER_REGISTER: return "register";
    case RAMDULSI_ANSWER_LOCKED_FIELD: return "locked field";
    case RAMDULSI_ANSWER_OFFERED_ROWS: return "offered rows";
    case RAMDULSI_ANSWER_NO_CHOICE: return "no choice";
    case RAMDULSI_ANSWER_PAUSED: return "paused";
    default: return "unknown";
    }
}

/* The name of what a run returned: it is another for 0 alone. */
static inline const char *ramdulsi_name_of_run(uint32_t number)
{
    return number == RAMDULSI_ANSWER_HALTED ? "halted" : ramdulsi_name_of_check(number);
}

/* ---- limits: the words of a row, the most that a table may have, the most that a row may say */

#define RAMDULSI_LIMIT_ROW_WORDS 9u
#define RAMDULSI_LIMIT_TYPE_WORDS 8u
#define RAMDULSI_LIMIT_ALLOCATION_WORDS 2u
#define RAMDULSI_LIMIT_OFFERED_WORDS 8u
#define RAMDULSI_LIMIT_TYPES 64u
#define RAMDULSI_LIMIT_TAGS 64u
#define RAMDULSI_LIMIT_BLOCKS 256u
#define RAMDULSI_LIMIT_CODE 8192u
#define RAMDULSI_LIMIT_ALLOCATIONS 4096u
#define RAMDULSI_LIMIT_MEMORY 16384u
#define RAMDULSI_LIMIT_OFFERED 8u
/* the most rows of the block table whose annotation may be left blank */
#define RAMDULSI_LIMIT_BLANKS 3u
#define RAMDULSI_LIMIT_FIELDS 8u
#define RAMDULSI_LIMIT_BLOCK_LENGTH 32u
/* the least address that a record may start at, as 0 stands for no record */
#define RAMDULSI_LIMIT_FIRST_START 1u
#define RAMDULSI_LIMIT_REGISTERS 8u

/* ---- kinds: bits 30 to 24 of a type word */

#define RAMDULSI_KIND_ANY 0u
#define RAMDULSI_KIND_REF 1u
#define RAMDULSI_KIND_MAYBE 2u
#define RAMDULSI_KIND_TAGGED 3u
#define RAMDULSI_KIND_PRESENT 4u
#define RAMDULSI_KIND_SAME 5u
#define RAMDULSI_KIND_RUN 6u
#define RAMDULSI_KIND_FROM 7u
#define RAMDULSI_KIND_IN 8u
/* A dependency byte from here on is a constant, by so much more than it is; one below is a field or a register. */
#define RAMDULSI_KIND_CONSTANTS 8u
/* Not a kind but the mark beside it, bit 31 of a type word: the field is locked. In an annotation it is refused. */
#define RAMDULSI_KIND_LOCKED 2147483648u

/* ---- opcodes: bits 31 to 24 of an instruction */

#define RAMDULSI_OPCODE_HALT 0u
#define RAMDULSI_OPCODE_CONSTANT 1u
#define RAMDULSI_OPCODE_COPY 2u
#define RAMDULSI_OPCODE_ADD 3u
#define RAMDULSI_OPCODE_SUBTRACT 4u
#define RAMDULSI_OPCODE_MULTIPLY 5u
#define RAMDULSI_OPCODE_DIVIDE 6u
#define RAMDULSI_OPCODE_MOVE 7u
#define RAMDULSI_OPCODE_LOAD 8u
#define RAMDULSI_OPCODE_STORE 9u
#define RAMDULSI_OPCODE_JUMP 10u
#define RAMDULSI_OPCODE_IF_EQUAL 11u
#define RAMDULSI_OPCODE_IF_LESS 12u

/* ---- making words
 *
 * A routine is a code and its blocks, which divide it from its first instruction to its last. A block's row says how many instructions
 * it has and what r0 to r7 hold where it starts. Its last instruction is a halt, a jump or a branch, and no other is. A record is as many
 * words of memory as its type has fields.
 *
 * A function that is given a part too large for its bits returns RAMDULSI_NO_WORD. It is neither a type word nor an instruction nor a
 * dependency, and ramdulsi_check refuses tables that have it: a part cut off could make a word that passes, and means something else. A
 * part that fits may still be wrong, as a record type that is not in the table; that is for the checks to say. To ramdulsi_check_offered
 * and ramdulsi_fill alone, a block's row with this word in all eight places is one left blank; with it in fewer it is refused there too.
 */
#define RAMDULSI_NO_WORD 0xffffffffu

/* Each of the eight type words of a row whose annotation is left blank, for ramdulsi_check_offered and ramdulsi_fill. */
#define RAMDULSI_BLANK_WORD 4294967295u

/* What a type depends on: a field of the same record (in a record type), a register (in an annotation), or a constant, 0 to 247. */
static inline uint32_t ramdulsi_of_field(uint32_t field)
{
    return field < RAMDULSI_LIMIT_FIELDS ? field : RAMDULSI_NO_WORD;
}

static inline uint32_t ramdulsi_of_register(uint32_t number)
{
    return number < RAMDULSI_LIMIT_REGISTERS ? number : RAMDULSI_NO_WORD;
}

static inline uint32_t ramdulsi_of_constant(uint32_t constant)
{
    return constant <= 255u - RAMDULSI_KIND_CONSTANTS ? constant + RAMDULSI_KIND_CONSTANTS : RAMDULSI_NO_WORD;
}

/* A type word of its parts: kind in bits 30 to 24, record type in 23 to 16, dependency d in 15 to 8, dependency e in 7 to 0. */
static inline uint32_t ramdulsi_type(uint32_t kind, uint32_t type, uint32_t d, uint32_t e)
{
    if (kind > 127u || type > 255u || d > 255u || e > 255u) {
        return RAMDULSI_NO_WORD;
    }
    return kind << 24 | type << 16 | d << 8 | e;
}

/* every word */
static inline uint32_t ramdulsi_type_any(void)
{
    return ramdulsi_type(RAMDULSI_KIND_ANY, 0, 0, 0);
}

/* the start of a record of the type */
static inline uint32_t ramdulsi_type_ref(uint32_t type)
{
    return ramdulsi_type(RAMDULSI_KIND_REF, type, 0, 0);
}

/* that, or 0 */
static inline uint32_t ramdulsi_type_maybe(uint32_t type)
{
    return ramdulsi_type(RAMDULSI_KIND_MAYBE, type, 0, 0);
}

/* 0, or the start of a record of the type that tag d stands for */
static inline uint32_t ramdulsi_type_tagged(uint32_t d)
{
    return ramdulsi_type(RAMDULSI_KIND_TAGGED, 0, d, 0);
}

/* that, and not 0 */
static inline uint32_t ramdulsi_type_present(uint32_t d)
{
    return ramdulsi_type(RAMDULSI_KIND_PRESENT, 0, d, 0);
}

/* the word that d is */
static inline uint32_t ramdulsi_type_same(uint32_t d)
{
    return ramdulsi_type(RAMDULSI_KIND_SAME, 0, d, 0);
}

/* whole records away from d, where records of the type lie one after the other from d up to e, one at least; it may be outside them */
static inline uint32_t ramdulsi_type_run(uint32_t type, uint32_t d, uint32_t e)
{
    return ramdulsi_type(RAMDULSI_KIND_RUN, type, d, e);
}

/* that, and not below d */
static inline uint32_t ramdulsi_type_from(uint32_t type, uint32_t d, uint32_t e)
{
    return ramdulsi_type(RAMDULSI_KIND_FROM, type, d, e);
}

/* that, and below e: the start of one of these records */
static inline uint32_t ramdulsi_type_in(uint32_t type, uint32_t d, uint32_t e)
{
    return ramdulsi_type(RAMDULSI_KIND_IN, type, d, e);
}

/* the same type, of a field that is locked: routines load it, and one that stores to it is refused */
static inline uint32_t ramdulsi_type_locked(uint32_t word)
{
    return word | RAMDULSI_KIND_LOCKED;
}

/* Fills a row of the type table: the field count and the type words of so many fields, then zeros. More than 8 fields are not read; their
 * count is kept, for the check to refuse. The pointer to the fields may be null where their count is 0 or more than 8.
 */
static inline void ramdulsi_row_of_type(uint32_t row[9], uint32_t count, const uint32_t *fields)
{
    uint32_t k;
    row[0] = count;
    for (k = 0; k < RAMDULSI_LIMIT_TYPE_WORDS; k++) {
        row[1u + k] = count <= RAMDULSI_LIMIT_FIELDS && k < count ? fields[k] : 0;
    }
}

/* Fills a row of the block table: the number of instructions, 1 to 32, and the type words of r0 to r7. */
static inline void ramdulsi_row_of_block(uint32_t row[9], uint32_t length, const uint32_t registers[8])
{
    uint32_t k;
    row[0] = length;
    for (k = 0; k < RAMDULSI_LIMIT_TYPE_WORDS; k++) {
        row[1u + k] = registers[k];
    }
}

/* Fills a row of the block table whose annotation is left blank: the number of instructions, 1 to 32, and eight blank words. */
static inline void ramdulsi_row_of_blank(uint32_t row[9], uint32_t length)
{
    uint32_t k;
    row[0] = length;
    for (k = 0; k < RAMDULSI_LIMIT_TYPE_WORDS; k++) {
        row[1u + k] = RAMDULSI_BLANK_WORD;
    }
}

/* Fills a row of the allocations: the address of the record's first word, and its type. */
static inline void ramdulsi_row_of_allocation(uint32_t row[2], uint32_t start, uint32_t type)
{
    row[0] = start;
    row[1] = type;
}

/* An instruction of its parts: opcode, a in bits 23 to 20, b in 19 to 16, c in 15 to 0; a and b are registers, and 0 where not used. */
static inline uint32_t ramdulsi_code(uint32_t opcode, uint32_t a, uint32_t b, uint32_t c)
{
    if (opcode > 255u || a >= RAMDULSI_LIMIT_REGISTERS || b >= RAMDULSI_LIMIT_REGISTERS || c > 65535u) {
        return RAMDULSI_NO_WORD;
    }
    return opcode << 24 | a << 20 | b << 16 | c;
}

/* the routine's end */
static inline uint32_t ramdulsi_code_halt(void)
{
    return ramdulsi_code(RAMDULSI_OPCODE_HALT, 0, 0, 0);
}

/* ra := c, 0 to 65,535 */
static inline uint32_t ramdulsi_code_constant(uint32_t a, uint32_t c)
{
    return ramdulsi_code(RAMDULSI_OPCODE_CONSTANT, a, 0, c);
}

/* ra := rb */
static inline uint32_t ramdulsi_code_copy(uint32_t a, uint32_t b)
{
    return ramdulsi_code(RAMDULSI_OPCODE_COPY, a, b, 0);
}

/* ra := rb + rc, modulo 2^32 as all arithmetic; c is a register here and in the next two */
static inline uint32_t ramdulsi_code_add(uint32_t a, uint32_t b, uint32_t c)
{
    return ramdulsi_code(RAMDULSI_OPCODE_ADD, a, b, ramdulsi_of_register(c));
}

/* ra := rb - rc */
static inline uint32_t ramdulsi_code_subtract(uint32_t a, uint32_t b, uint32_t c)
{
    return ramdulsi_code(RAMDULSI_OPCODE_SUBTRACT, a, b, ramdulsi_of_register(c));
}

/* ra := rb * rc */
static inline uint32_t ramdulsi_code_multiply(uint32_t a, uint32_t b, uint32_t c)
{
    return ramdulsi_code(RAMDULSI_OPCODE_MULTIPLY, a, b, ramdulsi_of_register(c));
}

/* ra := rb / c, c a constant, 1 to 65,535; no word for 0 */
static inline uint32_t ramdulsi_code_divide(uint32_t a, uint32_t b, uint32_t c)
{
    return c == 0 ? RAMDULSI_NO_WORD : ramdulsi_code(RAMDULSI_OPCODE_DIVIDE, a, b, c);
}

/* ra := rb + c, c a constant, -32,768 to 32,767 */
static inline uint32_t ramdulsi_code_move(uint32_t a, uint32_t b, int32_t c)
{
    if (c < -32768 || c > 32767) {
        return RAMDULSI_NO_WORD;
    }
    /* what is left is not negative, so no cast is needed, which some C++ is compiled without */
    return ramdulsi_code(RAMDULSI_OPCODE_MOVE, a, b, c & 65535);
}

/* ra := field c of the record that rb starts */
static inline uint32_t ramdulsi_code_load(uint32_t a, uint32_t b, uint32_t c)
{
    return ramdulsi_code(RAMDULSI_OPCODE_LOAD, a, b, c);
}

/* field c of the record that rb starts := ra */
static inline uint32_t ramdulsi_code_store(uint32_t a, uint32_t b, uint32_t c)
{
    return ramdulsi_code(RAMDULSI_OPCODE_STORE, a, b, c);
}

/* on to the block */
static inline uint32_t ramdulsi_code_jump(uint32_t block)
{
    return ramdulsi_code(RAMDULSI_OPCODE_JUMP, 0, 0, block);
}

/* where ra is the constant, on to the block, else to the next one. Constant first, then block: both are 0 to 255, and exchanged they may be
 * accepted.
 */
static inline uint32_t ramdulsi_code_if_equal(uint32_t a, uint32_t constant, uint32_t block)
{
    if (constant > 255u || block > 255u) {
        return RAMDULSI_NO_WORD;
    }
    return ramdulsi_code(RAMDULSI_OPCODE_IF_EQUAL, a, 0, constant << 8 | block);
}

/* where ra < rb, unsigned, on to the block, else to the next one */
static inline uint32_t ramdulsi_code_if_less(uint32_t a, uint32_t b, uint32_t block)
{
    return ramdulsi_code(RAMDULSI_OPCODE_IF_LESS, a, b, block);
}

/* ---- the calls
 *
 * Of each call: its tables, then its answers in the order in which the questions are asked, each with its place. Rows, tags, blocks,
 * fields and registers are counted from 0; a code index is counted over the whole code.
 */

/* Whether a routine is accepted, and what it took to check it.
 *   types    1 to 64 rows of 9 words: field count, then 8 type words, bit 31 set in those of locked fields
 *   tags     0 to 64 words: the record type of each tag
 *   blocks   1 to 256 rows of 9 words: length, then the type words of r0 to r7
 *   code     1 to 8,192 instruction words
 *   verdict  3 words: two for the place of the answer, and the number of fit questions. Since 0.6.0 there are three: a caller that lends
 *            two must be changed, and a compiler need not say so. The place:
 *     1         table (0 types, 1 tags, 2 blocks, 3 code), 0
 *     2, 3      row of types, 0
 *     4         tag, 0
 *     5         row of blocks, 0; the row is the block count where code is left over after the last block
 *     6         row of blocks, 0
 *     7 to 15, 23
 *               block, code index; the first instruction with a no has the answer, whatever its number; 23 is asked after 11 and before 12
 *     0         0, 0: accepted
 * The third word of the verdict is what the check costs, whether it accepts or refuses, in fit questions: does a value fit a type? A store
 * that is not refused puts one for each field of its record, whether the record is whole after it or not. An edge of a jump or branch,
 * which 14 or 15 asks about, puts eight, one for each register. They are counted whole, even where one fails. A refusal has those put up to
 * it: none where it is 1 to 6; where it is 14 or 15, the eight of the edge that fails too, and after 14 the untaken edge is not asked
 * about. The number is the same on every machine, and at most 16 times the instructions examined: all of them where the routine is
 * accepted, those up to and with the one at the code index where an instruction is refused, none where a table is. A loading queue can go
 * by it: library/c/turns.c has one.
 */
uint32_t ramdulsi_check(const uint32_t *types, size_t types_words, const uint32_t *tags, size_t tags_words,
                        const uint32_t *blocks, size_t blocks_words, const uint32_t *code, size_t code_words,
                        uint32_t verdict[3]);

/* The same where annotations may be left blank: whether the routine is accepted with rows of a list in their places, and with which.
 *   types, tags, code  as above
 *   blocks   1 to 256 rows of 9 words: length, then the type words of r0 to r7, or eight times RAMDULSI_BLANK_WORD in up to 3 rows
 *   offered  0 to 8 rows of 8 words: the type words of r0 to r7. Each row may be chosen for several blocks. Where no row of blocks is
 *            blank, the list is not looked at, whatever its length, and the answer is that of ramdulsi_check
 *   verdict  3 words: two for the place of the answer, and the number of fit questions. The place:
 *     1 to 5    as in ramdulsi_check
 *     6         row of blocks, 0; blank rows are passed over, and one that is blank in fewer than eight words is not blank
 *     32        the fourth blank block, 0; where there is none, 0, 0 for a list that is no whole rows or too long; else the first row of
 *               offered that 6 would refuse in blocks, 0. A blank row and one with the mark of a locked field are such
 *     33        the lowest blank block, 0: no choice is accepted, or nothing is offered
 *     7 to 15, 23
 *               as in ramdulsi_check, only where no row is blank: with blank rows what they refuse is one choice
 *     0         0, 0: accepted
 *   choice   3 words, filled with the rows of offered that were chosen, counted from 0: for the lowest blank block, the next and the third;
 *            0 where there is no such block, and 0 0 0 in a refusal
 * A choice is accepted if ramdulsi_check accepts the routine with the chosen rows in the blank ones' places. Of the choices that are, the
 * answer is the one with the first row for the lowest blank block; of those with the same, the one with the first for the next, and so on.
 * The number of fit questions is what ramdulsi_check gives for the chosen rows, or for the table where no row is blank: what other choices
 * took is not counted. It is 0 where the answer is 1 to 6, 32 or 33.
 */
uint32_t ramdulsi_check_offered(const uint32_t *types, size_t types_words, const uint32_t *tags, size_t tags_words,
                                const uint32_t *blocks, size_t blocks_words, const uint32_t *code, size_t code_words,
                                const uint32_t *offered, size_t offered_words, uint32_t verdict[3], uint32_t choice[3]);

/* The same, and where it returns 0 it has laid the chosen rows into the blank ones of blocks, eight words each; a table without a blank row
 * stays as it is. Where it refuses it has written nothing there. Hand the filled table to every other call: to ramdulsi_check and
 * ramdulsi_entry_check a blank row is refused by 6, and a run looks at no annotation.
 */
uint32_t ramdulsi_fill(const uint32_t *types, size_t types_words, const uint32_t *tags, size_t tags_words,
                       uint32_t *blocks, size_t blocks_words, const uint32_t *code, size_t code_words,
                       const uint32_t *offered, size_t offered_words, uint32_t verdict[3], uint32_t choice[3]);

/* Whether every field of every allocated record meets its meaning.
 *   types, tags  as above
 *   allocations  0 to 4,096 rows of 2 words: start, record type
 *   memory       1 to 16,384 words
 *   place        2 words, filled with the place of the answer:
 *     1         table (0 types, 1 tags), 0
 *     2, 3      row of types, 0
 *     4         tag, 0
 *     17        0, 0
 *     19        row of allocations, 0; row 0 for a list that is no whole rows or too long
 *     20        row of allocations, field
 *     0         0, 0: every field does
 */
uint32_t ramdulsi_memory_check(const uint32_t *types, size_t types_words, const uint32_t *tags, size_t tags_words,
                               const uint32_t *allocations, size_t allocations_words, const uint32_t *memory,
                               size_t memory_words, uint32_t place[2]);

/* Whether eight registers meet the annotation of a block. What the fields hold is not asked: that is the memory check's.
 *   types, tags, allocations, memory, blocks, code  as above
 *   block      the block to start at
 *   registers  8 words, read only
 *   place      2 words, filled with the place of the answer:
 *     1         table (0 types, 1 tags), 0
 *     2, 3      row of types, 0
 *     4         tag, 0
 *     17        0, 0
 *     19        row of allocations, 0; row 0 for a list that is no whole rows or too long
 *     1         table (2 blocks, 3 code), 0
 *     5         row of blocks, 0; the row is the block count where code is left over after the last block
 *     6         row of blocks, 0
 *     16        0, 0
 *     21        register, 0
 *     0         0, 0: every register does
 */
uint32_t ramdulsi_entry_check(const uint32_t *types, size_t types_words, const uint32_t *tags, size_t tags_words,
                              const uint32_t *allocations, size_t allocations_words, const uint32_t *memory,
                              size_t memory_words, const uint32_t *blocks, size_t blocks_words, const uint32_t *code,
                              size_t code_words, uint32_t block, const uint32_t registers[8], uint32_t place[2]);

/* Runs a routine from the first instruction of a block, for at most a budget of blocks. With a budget of 0 it is paused where it starts,
 * unless it is refused by 1, 5, 16 or 17.
 *   blocks, code  as above; annotations are not looked at
 *   memory        1 to 16,384 words, changed as the routine's stores change it; a refusal leaves it as it was before that instruction
 *   block         the block to start at
 *   registers     8 words: the run's at the start, and at the end
 *   answer        4 words: two for the place, and the number of blocks finished, low word first. It is that of this call alone: where a
 *                 routine has several turns, add them up yourself. The place:
 *     1             table (2 blocks, 3 code), 0
 *     5             row of blocks, 0; the row is the block count where code is left over after the last block
 *     16, 17        0, 0
 *     7, 8, 9, 18   block, code index, of the first instruction with a no
 *     0             block, code index, of the halt
 *     40            block, code index, of the next block's first instruction
 * Where the answer is 1, 5, 16 or 17 no block is finished, and memory and registers are as they were. Where it is 40, go on with the block
 * of the answer, these registers and this memory.
 */
uint32_t ramdulsi_run(const uint32_t *blocks, size_t blocks_words, const uint32_t *code, size_t code_words, uint32_t *memory,
                      size_t memory_words, uint32_t block, uint32_t registers[8], uint64_t budget, uint32_t answer[4]);

/* The number of blocks finished, from the answer of a run: those of that one call. */
static inline uint64_t ramdulsi_finished(const uint32_t answer[4])
{
    const uint64_t high = answer[3];
    return high << 32 | answer[2];
}

#ifdef __cplusplus
}
#endif

#endif
