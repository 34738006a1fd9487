/* Takes in a table from its card, checks it, multiplies, inverts and raises to a power under it, writes its gate list and its card.
 * Build and run, from the project's root:
 *
 *     ./library
 *     cc -std=c99 -Wall -Wextra -Iinclude samples/use_nb.c target/staticlib/libnb.a -o target/use_nb
 *     target/use_nb
 *
 * It prints
 *
 *     width 5, ones 9
 *     accepted
 *     03 * 1d = 0e
 *     inverse of 03 = 16, 2 products
 *     03 * 16 = 1f
 *     03 to the power 2^1001 = 06
 *     reduced list: 25 AND, 30 XOR, 172 words
 *     card: 16 bytes, as it was read
 *     a damaged table: fault 5, rows 1 and 4 differ
 */
#include "nb.h"

#include <stdio.h>
#include <stdlib.h>
#include <string.h>

/* The card of document 01's table of width 5, 02 09 18 06 14: form, width, and for each row its number of ones and their places. */
static const uint8_t card[] = {1, 5, 1, 1, 2, 0, 2, 2, 3, 0, 2, 1, 0, 2, 2, 1};

static int refused(const char *call, uint64_t answer)
{
    if (NB_NUMBER(answer) != NB_DONE)
        printf("%s: fault %u\n", call, NB_NUMBER(answer));
    return NB_NUMBER(answer) != NB_DONE;
}

int main(void)
{
    uint8_t table[NB_TABLE_BYTES(NB_MAX_WIDTH)];
    uint64_t answer = nb_card_read(card, sizeof card, table, sizeof table);
    if (refused("nb_card_read", answer))
        return 1;
    uint64_t m = NB_FIRST(answer);
    size_t w = NB_OPERAND_BYTES(m), size = NB_TABLE_BYTES(m);

    answer = nb_ones(m, table, size);
    printf("width %u, ones %u\n", (unsigned)m, NB_FIRST(answer));

    if (refused("nb_check", nb_check(m, table, size)))
        return 1;
    printf("accepted\n");

    uint8_t a[NB_OPERAND_BYTES(NB_MAX_WIDTH)] = {0x03}, b[NB_OPERAND_BYTES(NB_MAX_WIDTH)] = {0x1d};
    uint8_t c[NB_OPERAND_BYTES(NB_MAX_WIDTH)], inverse[NB_OPERAND_BYTES(NB_MAX_WIDTH)];
    if (refused("nb_product", nb_product(m, table, size, a, w, b, w, c, w)))
        return 1;
    printf("%02x * %02x = %02x\n", a[0], b[0], c[0]);

    answer = nb_inverse(m, table, size, a, w, inverse, w);
    if (refused("nb_inverse", answer))
        return 1;
    printf("inverse of %02x = %02x, %u products\n", a[0], inverse[0], NB_FIRST(answer));

    if (refused("nb_product", nb_product(m, table, size, a, w, inverse, w, c, w)))
        return 1;
    printf("%02x * %02x = %02x\n", a[0], inverse[0], c[0]);

    /* The power 2^k is the turn by k, whatever k is. */
    if (refused("nb_turn", nb_turn(m, a, w, 1001, c, w)))
        return 1;
    printf("%02x to the power 2^1001 = %02x\n", a[0], c[0]);

    answer = nb_counts_reduced(m, table, size);
    if (refused("nb_counts_reduced", answer))
        return 1;
    size_t words = NB_LIST_WORDS(m, NB_FIRST(answer), NB_SECOND(answer));
    uint32_t *list = malloc(words * sizeof *list);
    if (list == NULL || refused("nb_list_reduced", nb_list_reduced(m, table, size, list, words)))
        return 1;
    printf("reduced list: %u AND, %u XOR, %zu words\n", NB_FIRST(answer), NB_SECOND(answer), words);
    free(list);

    static uint8_t written[NB_CARD_BYTES(NB_MAX_WIDTH)];
    answer = nb_card_write(m, table, size, written, sizeof written);
    if (refused("nb_card_write", answer))
        return 1;
    int same = NB_FIRST(answer) == sizeof card && memcmp(written, card, sizeof card) == 0;
    printf("card: %u bytes, %s\n", NB_FIRST(answer), same ? "as it was read" : "another");

    table[1] ^= 1;
    answer = nb_check(m, table, size);
    if (NB_NUMBER(answer) == NB_ROW_PAIR)
        printf("a damaged table: fault %u, rows %u and %u differ\n", NB_NUMBER(answer), NB_FIRST(answer),
               (unsigned)m - NB_FIRST(answer));
    return 0;
}
