/* Prepares the chain of eight, asks for classes of its last entry and for its rating at a level that is deeper: prints each
 * with the cells read. */
#include "tantsheko.h"
#include <stdio.h>

enum { ENTRIES = 8, WORDS = 4 + 11 * ENTRIES + 21 * (ENTRIES / 8) };

static void print(uint32_t d, const tantsheko_answer *a) {
    printf("7,%u,%u,%u:", (unsigned)d, (unsigned)a->number, (unsigned)a->word);
    for (uint32_t i = 0; i < a->count; i++)
        printf(" %u", (unsigned)a->cells[i]);
    printf("\n");
}

int main(void) {
    uint32_t parents[ENTRIES], table[WORDS], space[6 * ENTRIES];
    for (uint32_t i = 0; i < ENTRIES; i++)
        parents[i] = i == 0 ? TANTSHEKO_TOP : i - 1;

    tantsheko_reply reply;
    tantsheko_prepare(parents, ENTRIES, table, WORDS, space, 6 * ENTRIES, &reply);
    if (reply.number != TANTSHEKO_OK) {
        fprintf(stderr, "refused: %u, naming %u\n", (unsigned)reply.number, (unsigned)reply.word);
        return 1;
    }
    tantsheko_answer a;
    for (uint32_t d = 1; d <= 8; d++) {
        tantsheko_level(table, WORDS, 7, d, &a);
        print(d, &a);
    }
    tantsheko_rating(table, WORDS, 7, 8, &a);
    print(8, &a);
    return 0;
}
