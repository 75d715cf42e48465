/* Prepares a list of six entries and asks which class two of them share, and how many climbs are between them: prints both, or
 * the refusal with what it names. No cells are listed. */
#include "tantsheko.h"
#include <stdio.h>

enum { ENTRIES = 6, WORDS = 4 + 11 * ENTRIES + 21 * (ENTRIES / 8) };

int main(void) {
    const uint32_t parents[ENTRIES] = {TANTSHEKO_TOP, 0, 0, 1, 1, 3};
    const uint32_t pairs[][2] = {{5, 4}, {4, 5}, {5, 2}, {5, 5}, {1, 5}, {6, 9}, {5, 6}};
    uint32_t table[WORDS], space[6 * ENTRIES];

    tantsheko_reply reply;
    tantsheko_prepare(parents, ENTRIES, table, WORDS, space, 6 * ENTRIES, &reply);
    if (reply.number != TANTSHEKO_OK) {
        fprintf(stderr, "refused: %u, naming %u\n", (unsigned)reply.number, (unsigned)reply.word);
        return 1;
    }
    for (size_t i = 0; i < sizeof pairs / sizeof pairs[0]; i++) {
        const uint32_t u = pairs[i][0], v = pairs[i][1];
        tantsheko_answer class, climbs;
        tantsheko_nearest_common_ancestor(table, WORDS, u, v, &class);
        tantsheko_distance(table, WORDS, u, v, &climbs);
        if (class.number != TANTSHEKO_OK)
            printf("%u,%u: refused, %u, naming %u\n", (unsigned)u, (unsigned)v, (unsigned)class.number, (unsigned)class.word);
        else
            printf("%u,%u: class %u, %u climbs, %u cells\n", (unsigned)u, (unsigned)v, (unsigned)class.word,
                   (unsigned)climbs.word, (unsigned)class.count);
    }
    return 0;
}
