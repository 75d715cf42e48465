/* Prepares a top with two entries below it, checks sheets of level 1, which cover these three, and quotes from the good one:
 * prints each verdict, and class and cents of each sum, or the refusal. */
#include "tantsheko.h"
#include <inttypes.h>
#include <stdio.h>
#include <string.h>

enum { ENTRIES = 5, WORDS = 4 + 11 * ENTRIES + 21 * (ENTRIES / 8), SHEETS = 4, SUMS = 5 };

int main(void) {
    const uint32_t parents[ENTRIES] = {TANTSHEKO_TOP, 0, 0, 1, 2};
    const char *const sheets[SHEETS] = {
        "1,0,2000000000\n",
        "0,0,2000000000,700\n2,0,2000000000,500\n1,0,999,2000\n1,1001,2000000000,1000\n",
        "0,0,2000000000,700\n2,0,2000000000,500\n1,0,1000,2000\n1,1000,2000000000,1000\n",
        "0,0,2000000000,700\n2,0,2000000000,500\n1,1000,2000000000,1000\n1,0,999,2000\n",
    };
    const int64_t sums[SUMS] = {25, -999, 1000, -2000000000, 2000000001};
    uint32_t table[WORDS], space[6 * ENTRIES];
    static uint64_t sheet[TANTSHEKO_SHEET_WORDS];

    tantsheko_reply reply;
    tantsheko_prepare(parents, ENTRIES, table, WORDS, space, 6 * ENTRIES, &reply);
    if (reply.number != TANTSHEKO_OK) {
        fprintf(stderr, "refused: %u, naming %u\n", (unsigned)reply.number, (unsigned)reply.word);
        return 1;
    }
    tantsheko_verdict v;
    for (int i = 0; i < SHEETS; i++) {
        tantsheko_checked_sheet(table, WORDS, (const uint8_t *)sheets[i], strlen(sheets[i]), 1, sheet, &v);
        printf("%u,%u,%u\n", (unsigned)v.number, (unsigned)v.word, (unsigned)v.amount);
    }
    if (v.number != TANTSHEKO_OK)
        return 1;
    for (uint32_t entry = 0; entry < ENTRIES; entry += 3)
        for (int i = 0; i < SUMS; i++) {
            tantsheko_quote q;
            uint32_t amount;
            tantsheko_quotation(table, WORDS, sheet, entry, sums[i], &q.answer, &amount, &q.cents);
            printf("%u,%" PRId64 ": %u,%u,%" PRId64 ",%u\n", (unsigned)entry, sums[i], (unsigned)q.answer.number,
                   (unsigned)q.answer.word, q.cents, (unsigned)q.answer.count);
        }
    return 0;
}
