/* Prepares the chain of eight and asks what sums cost in a class of its last entry: prints class and cents of each, or the refusal. */
#include "tantsheko.h"
#include <inttypes.h>
#include <stdio.h>

enum { ENTRIES = 8, WORDS = 4 + 11 * ENTRIES + 21 * (ENTRIES / 8), RATES = 3, SUMS = 4 };

int main(void) {
    uint32_t parents[ENTRIES], table[WORDS], space[6 * ENTRIES];
    const uint32_t rates[RATES] = {500000, 1000, 1000001};
    const int64_t sums[SUMS] = {25, -25, 2000000000, -2000000001};
    for (uint32_t i = 0; i < ENTRIES; i++)
        parents[i] = i == 0 ? TANTSHEKO_TOP : i - 1;

    tantsheko_reply reply;
    tantsheko_prepare(parents, ENTRIES, table, WORDS, space, 6 * ENTRIES, &reply);
    if (reply.number != TANTSHEKO_OK) {
        fprintf(stderr, "refused: %u, naming %u\n", (unsigned)reply.number, (unsigned)reply.word);
        return 1;
    }
    for (uint32_t d = 0; d <= 3; d++)
        for (int i = 0; i < SUMS; i++) {
            tantsheko_quote q;
            tantsheko_premium(table, WORDS, rates, RATES, 7, d, sums[i], &q.answer, &q.cents);
            printf("7,%u,%" PRId64 ": %u,%u,%" PRId64 ",%u\n", (unsigned)d, sums[i], (unsigned)q.answer.number,
                   (unsigned)q.answer.word, q.cents, (unsigned)q.answer.count);
        }
    return 0;
}
