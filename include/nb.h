/* Proved arithmetic in GF(2^m), in a normal basis, for C: the check of a table, products, inverse, trace, quadratic, gate lists, the
 * acceptance of lists from elsewhere, drawn tables and cards, every call of document 01 and of document 02's request (b) on byte
 * buffers. docs/FAULTS.md has document 01's table of faults in words.
 *
 * Every call is proved to do what is said here, for every content and every length: the contracts stand above the functions of
 * crates/nb_c/src, and word for word above those of crates/nb/src, which they call, and cite the definitions of crates/nb/specs.
 * `./library` writes target/staticlib/libnb.a, for x86-64 Linux, where size_t has 64 bits; it needs no other library than the C library,
 * and of that memcpy and memset alone.
 *
 * Operands. m is the width, 2 to 571; W is m/8 rounded up. An operand is W bytes: coordinate i is bit i % 8 of byte i / 8, and bits at
 * m and above are 0. It is the sum of those of β0 to βm-1 whose coordinate is 1; β0 squared is β1, and so on round to β0. Turned k
 * places, coordinate i of the result is coordinate i-k of the old, places counted modulo m.
 *
 * Tables. A table is m rows of W bytes, m·W in all; row d holds the coordinates of β0·βd.
 *
 * Fixed values. Zero and one: nb_zero and nb_one. The square: nb_turn with k = 1. The four tables that document 01 carries in the
 * program, of widths 2, 3, 4 and 5: what nb_draw writes for these widths.
 *
 * Lengths are numbers of elements, bytes or words of 32 bits. An operand or a result of any other length than W, and a table of any
 * other than m·W, are refused with 2; only where "lent" is said may a buffer be longer than what is written, and what lies behind that
 * stays.
 *
 * Answers. Each call returns one number: number + 2^8 · first + 2^36 · second. Number 0 is success; else it is the number of the
 * fault in document 01's table (NB_.. below), the lowest that applies, except that a card is judged in byte order and nb_accept gives
 * 19 before 18. With a fault every buffer is as it was, and first and second are 0 but for NB_ROW_PAIR (first is d), NB_TRIPLE (first
 * is i, second j; i is always 0) and NB_OUTPUT_SET (first is r). Where no first or second is named, it is 0.
 *
 * The caller. The proofs take for granted: a pointer is not null, even at length 0, and points to as many elements as the length
 * says, aligned for their type; a buffer that a call writes overlaps no other argument of that call. Arguments that are only read
 * may overlap: a and b may be one operand. No call keeps state between calls, allocates or waits: any number of them may run at
 * once on several threads, as long as no thread writes what another reads or writes.
 *
 * Stack. "Stack" is the most bytes of stack that a call takes, whatever is handed in: what compare/tests/stack.rs measured, rounded up.
 * Nothing proves it.
 *
 * Gate lists. A list is words of 32 bits:
 *
 *     word 0                     m
 *     word 1                     g, the number of gates
 *     words 2 + 3n to 4 + 3n     gate n, n from 0 to g-1: its kind, 0 for AND and 1 for XOR, its left and its right wire
 *     word 2 + 3g + r            the output wire of coordinate r, r from 0 to m-1
 *
 * Wires 0 to m-1 are the coordinates of a, m to 2m-1 those of b, and wire 2m + n is what gate n gives. A gate reads earlier wires
 * alone. Every list that is written begins with the m² AND gates, gate i·m + j being ai·bj. A list from elsewhere need not; to be
 * accepted it must be of this form: an AND takes one wire of a and one of b, on either side, and an XOR takes two gates, which may be
 * one and the same. The wire of each gate is then a sum of products ai·bj, and a gate that nothing reads does no harm.
 *
 * Cards. A card is a table for a file or a line: the number 1 (its form), m, and for each row the number of its ones, the place of the
 * first, and for each further one its place minus the previous minus 1. A number below 128 is a byte, one from 128 on two: the
 * lower seven bits with the high bit set, then the rest.
 */
#ifndef NB_H
#define NB_H

#include <stddef.h>
#include <stdint.h>

#ifdef __cplusplus
extern "C" {
#endif

/* The greatest width; W; the bytes of a table; the most that a card of the width can have, as it has from width 128 on where all
 * coordinates of the table are 1. Constants where m is one, so that a buffer can be declared by them. */
#define NB_MAX_WIDTH 571
#define NB_OPERAND_BYTES(m) (((size_t)(m) + 7) / 8)
#define NB_TABLE_BYTES(m) ((size_t)(m) * NB_OPERAND_BYTES(m))
#define NB_CARD_BYTES(m) (3 + (size_t)(m) * ((size_t)(m) + 2))

/* The words of a list with these numbers of gates, as nb_counts_* answer them. Whatever the table, a list has at most m³ gates and
 * 2 + 3·m³ + m words. */
#define NB_LIST_WORDS(m, ands, xors) (2 + 3 * ((size_t)(ands) + (size_t)(xors)) + (size_t)(m))

/* The parts of an answer. */
#define NB_NUMBER(answer) ((unsigned)((answer) & 0xff))
#define NB_FIRST(answer) ((uint32_t)((answer) >> 8 & 0xfffffff))
#define NB_SECOND(answer) ((uint32_t)((answer) >> 36))

/* Document 01's table of faults. */
enum nb_fault {
    NB_DONE = 0,
    NB_WIDTH = 1,            /* width not 2..571 */
    NB_LENGTH = 2,           /* a length not as laid down */
    NB_HIGH_BIT = 3,         /* bit set at m or above */
    NB_ROW_ZERO = 4,         /* row 0 wrong */
    NB_ROW_PAIR = 5,         /* rows d, m-d differ: least d */
    NB_TRIPLE = 6,           /* triple differs: i, j; i is always 0 */
    NB_ROW_SUM = 7,          /* no longer given, and reserved: the check ends with 6 */
    NB_TURN_COUNT = 8,       /* no longer given, and reserved: a turn takes every count */
    NB_INVERSE_OF_ZERO = 9,  /* inverse of zero */
    NB_TRACE_ONE = 10,       /* trace of c is 1 */
    NB_OUTPUT_SHORT = 11,    /* lent output shorter than needed */
    NB_CARD_ENDS = 12,       /* card ends early */
    NB_CARD_NUMBER = 13,     /* card number not shortest, or third group */
    NB_CARD_FORM = 14,       /* form not 1 */
    NB_CARD_PLACE = 15,      /* count above m, or place m or above */
    NB_CARD_TAIL = 16,       /* bytes after the card */
    NB_NO_TYPE = 17,         /* type 0 */
    NB_BAD_GATE = 18,        /* kind above 1, gate wire not earlier, output wire absent */
    NB_LIST_SIZE = 19,       /* list to accept: width above 16, or more than 2,000 gates */
    NB_GATE_FORM = 20,       /* gate outside the form */
    NB_OUTPUT_SET = 21       /* output's set of products wrong: least r */
};

/* The check. Success exactly when the operands of the width form a field under the table whose square is the turn by one.
 * Faults: 1; 2 table; 3 in a row; 4; 5 with d; 6 with i, j (i is always 0: under rules 4 and 5 a triple differs at i = 0 first).
 * Takes as many sums of rows as the table has ones. Stack: 1,536. */
uint64_t nb_check(uint64_t width, const uint8_t *table, size_t table_len);

/* first: C, the number of ones in the table. Faults: 1; 2 table; 3 in a row. Stack: 256. */
uint64_t nb_ones(uint64_t width, const uint8_t *table, size_t table_len);

/* result: the plain product a·b under the table, which need not be accepted.
 * Faults: 1; 2 table, a, b, result; 3 in a row, a, b. Stack: 13,312. */
uint64_t nb_product(uint64_t width, const uint8_t *table, size_t table_len, const uint8_t *a, size_t a_len,
                    const uint8_t *b, size_t b_len, uint8_t *result, size_t result_len);

/* result: the reduced product of a and b, which is the plain one under an accepted table.
 * Faults: 1; 2 table, a, b, result; 3 in a row, a, b; 4; 5 with d. Stack: 13,312. */
uint64_t nb_product_reduced(uint64_t width, const uint8_t *table, size_t table_len, const uint8_t *a, size_t a_len,
                            const uint8_t *b, size_t b_len, uint8_t *result, size_t result_len);

/* result: a to the power 2^m - 2 by the chain of Itoh and Tsujii, the inverse of a under an accepted table.
 * first: the number of products made. Faults: 1; 2 table, a, result; 3 in a row, a; 9. Stack: 20,480. */
uint64_t nb_inverse(uint64_t width, const uint8_t *table, size_t table_len, const uint8_t *a, size_t a_len,
                    uint8_t *result, size_t result_len);

/* result: zero. Faults: 1; 2 result. Stack: 512. */
uint64_t nb_zero(uint64_t width, uint8_t *result, size_t result_len);

/* result: one, the operand with all m coordinates 1. Faults: 1; 2 result. Stack: 512. */
uint64_t nb_one(uint64_t width, uint8_t *result, size_t result_len);

/* result: a turned k places, for every k: k is taken modulo m, so that m places give a again. k = 1 is the square; under an accepted
 * table k places are a to the power 2^k. Faults: 1; 2 a, result; 3 in a. Stack: 1,024. */
uint64_t nb_turn(uint64_t width, const uint8_t *a, size_t a_len, uint64_t k, uint8_t *result, size_t result_len);

/* result: a + b, coordinate by coordinate modulo 2. Faults: 1; 2 a, b, result; 3 in a, b. Stack: 512. */
uint64_t nb_sum(uint64_t width, const uint8_t *a, size_t a_len, const uint8_t *b, size_t b_len, uint8_t *result,
                size_t result_len);

/* first: the trace of a, 0 or 1. Faults: 1; 2 a; 3 in a. Stack: 256. */
uint64_t nb_trace(uint64_t width, const uint8_t *a, size_t a_len);

/* result: the z with z² + z = c whose coordinate 0 is 0. Faults: 1; 2 c, result; 3 in c; 10 where c has trace 1. Stack: 512. */
uint64_t nb_solve(uint64_t width, const uint8_t *c, size_t c_len, uint8_t *result, size_t result_len);

/* first: the AND gates, second: the XOR gates of the table's plain, reduced or common list.
 * Faults: 1; 2 table; 3 in a row; 4; 5 with d. Stack: 1,536. */
uint64_t nb_counts_plain(uint64_t width, const uint8_t *table, size_t table_len);
uint64_t nb_counts_reduced(uint64_t width, const uint8_t *table, size_t table_len);
uint64_t nb_counts_common(uint64_t width, const uint8_t *table, size_t table_len);

/* out, lent: the table's plain, reduced or common list, NB_LIST_WORDS(m, first, second) words.
 * first: its AND gates, second: its XOR gates. Faults: 1; 2 table; 3 in a row; 4; 5 with d; 11 where out is too short.
 * Stack: 69,632. */
uint64_t nb_list_plain(uint64_t width, const uint8_t *table, size_t table_len, uint32_t *out, size_t out_len);
uint64_t nb_list_reduced(uint64_t width, const uint8_t *table, size_t table_len, uint32_t *out, size_t out_len);
uint64_t nb_list_common(uint64_t width, const uint8_t *table, size_t table_len, uint32_t *out, size_t out_len);

/* Runs a list on a and b. wires, of exactly 2m + g bytes: byte n is the value of wire n, 0 or 1. result: coordinate r is the value
 * of the output wire for r. Faults: 1; 2 list (fewer than two words, first word not the width, not 2 + 3g + m words), a, b, result,
 * wires; 3 in a, b; 18. Stack: 1,024. */
uint64_t nb_run(uint64_t width, const uint32_t *list, size_t list_len, const uint8_t *a, size_t a_len, const uint8_t *b,
                size_t b_len, uint8_t *result, size_t result_len, uint8_t *wires, size_t wires_len);

/* Whether the list forms the table's plain product: among the lists of the form above, success exactly when nb_run gives what nb_product
 * gives, for all a and b. The table need not be accepted. first: the list's AND gates, second: its XOR gates.
 * Faults, in this order: 1; 2 table, list (as for nb_run); 3 in a row; 4; 5 with d; 19 where the width is above 16 or the list has more
 * than 2,000 gates; 18; 20 where a gate is outside the form; 21 with r, the least coordinate whose output is an input wire, or sums
 * other products than the ai·bj for which βi·βj has coordinate r. Stack: 69,632. */
uint64_t nb_accept(uint64_t width, const uint8_t *table, size_t table_len, const uint32_t *list, size_t list_len);

/* first: the type T of the width's Gaussian normal basis, by ANSI X9.62's choice: 2 where it is a type of the width, else 1 where that
 * is one, else the least. It is the least but at widths 2, 18, 210 and 378, which have types 1 and 2 both. Faults: 1; 17 where 8 divides
 * the width, which has none. Not a call of document 01: nb_draw's answer without the table. Stack: 1,024. */
uint64_t nb_type(uint64_t width);

/* table, of exactly m·W bytes: the table of the width's Gaussian normal basis of the type that nb_type gives. first: that T. Tables of
 * other types, as those of type 1 at widths 18, 210 and 378, are taken in as any other: no call but these two knows types.
 * Faults: 1; 2 table; 17 where 8 divides the width. Stack: 57,344. */
uint64_t nb_draw(uint64_t width, uint8_t *table, size_t table_len);

/* out, lent: the card of the table, at most NB_CARD_BYTES(m) bytes. first: its length in bytes.
 * Faults: 1; 2 table; 3 in a row; 11 where out is too short. Stack: 512. */
uint64_t nb_card_write(uint64_t width, const uint8_t *table, size_t table_len, uint8_t *out, size_t out_len);

/* table, lent: the table of a card, m·W bytes, never more than NB_TABLE_BYTES(NB_MAX_WIDTH). first: m. The check is not run.
 * Faults, at the byte where each arises: 12; 13; 14; 1; then 11 where the lent table is shorter than m·W; 15; 16. Stack: 1,024. */
uint64_t nb_card_read(const uint8_t *card, size_t card_len, uint8_t *table, size_t table_len);

#ifdef __cplusplus
}
#endif

#endif
