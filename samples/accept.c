/* Judges a gate list that the array's maker sends back: ours as it was written, and with one wire changed. Build and run, from the
 * project's root:
 *
 *     ./library
 *     cc -std=c99 -Wall -Wextra -Iinclude samples/accept.c target/staticlib/libnb.a -o target/accept
 *     target/accept
 *
 * It prints
 *
 *     as it was written: accepted, 25 AND, 30 XOR
 *     a wire changed: fault 21, coordinate 3 is wrong
 */
#include "nb.h"

#include <stdio.h>

enum { M = 5 };

static void show(const char *list, uint64_t answer)
{
    if (NB_NUMBER(answer) == NB_DONE)
        printf("%s: accepted, %u AND, %u XOR\n", list, NB_FIRST(answer), NB_SECOND(answer));
    else if (NB_NUMBER(answer) == NB_OUTPUT_SET)
        printf("%s: fault %u, coordinate %u is wrong\n", list, NB_NUMBER(answer), NB_FIRST(answer));
    else
        printf("%s: fault %u\n", list, NB_NUMBER(answer));
}

int main(void)
{
    uint8_t table[NB_TABLE_BYTES(M)];
    if (NB_NUMBER(nb_draw(M, table, sizeof table)) != NB_DONE)
        return 1;

    /* Room for any list of the width. */
    uint32_t list[NB_LIST_WORDS(M, 0, M * M * M)];
    uint64_t answer = nb_list_reduced(M, table, sizeof table, list, sizeof list / sizeof *list);
    if (NB_NUMBER(answer) != NB_DONE)
        return 1;
    size_t words = NB_LIST_WORDS(M, NB_FIRST(answer), NB_SECOND(answer));
    show("as it was written", nb_accept(M, table, sizeof table, list, words));

    /* Gate 26, the second XOR, is a0·b2 + a2·b0, which coordinates 3 and 4 sum. Its right wire now brings a2·b1. */
    list[2 + 3 * 26 + 2] = 2 * M + 2 * M + 1;
    show("a wire changed", nb_accept(M, table, sizeof table, list, words));
    return 0;
}
