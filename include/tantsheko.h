/* The proved class tree for C. Link with libexports.a, which `host/run build` writes to target/staticlib.
 *
 * A list is an array of words, one for each entry: its parent's number, or TANTSHEKO_TOP. Each
 * array has the length that is stated, and arrays that one call takes do not overlap. No other precondition is left to the
 * caller: lists, tables, texts and numbers may hold anything, and bad input gets its numbered refusal. Nothing is allocated, and no function keeps a pointer. */
#ifndef TANTSHEKO_H
#define TANTSHEKO_H

#include <stddef.h>
#include <stdint.h>

#ifdef __cplusplus
extern "C" {
#endif

/* The word of the top in a list. */
#define TANTSHEKO_TOP UINT32_C(4294967295)

/* Numbers of answers, with what each names: 0 for a result, else why there is none. */
enum tantsheko_number {
    TANTSHEKO_OK = 0,          /* preparing: W; a question: its result */
    TANTSHEKO_COUNT = 1,       /* the list has no entry, or more than 1,048,576: 0 */
    TANTSHEKO_SHORT_TABLE = 2, /* the table is under W words: 0 */
    TANTSHEKO_SHORT_SPACE = 3, /* the working space is under 6n words: 0 */
    TANTSHEKO_STRAY = 4,       /* a word is neither the top's nor an entry: the lowest such entry */
    TANTSHEKO_TOPS = 5,        /* not exactly one top: the second-lowest top, or n */
    TANTSHEKO_LOOP = 6,        /* a climb never meets the top: the lowest such entry */
    TANTSHEKO_UNKNOWN = 7,     /* an argument is no entry: the first such argument */
    TANTSHEKO_TOO_DEEP = 8,    /* deeper than the entry: the entry. Level lookup and climb alone give it */
    TANTSHEKO_BROKEN = 9,      /* the table is not one that the question can be answered from, as one of an older library: 0 */
    TANTSHEKO_NOT_ABOVE = 10,  /* u is not strictly above v: u */
    TANTSHEKO_BAD_RATE = 11,   /* the class's rate is over 1,000,000, or past the list's end: 0 */
    TANTSHEKO_BAD_SUM = 12,    /* the sum is outside -2,000,000,000 to 2,000,000,000: 0 */
    TANTSHEKO_BAD_LINE = 13,   /* a sheet's line is no band of a class that it is to cover: the first such line, from 1 */
    TANTSHEKO_GAP = 14,        /* an amount of a class is in no band of the sheet: the class, and the amount beside it */
    TANTSHEKO_OVERLAP = 15     /* an amount of a class is in more than one band of the sheet: likewise */
};

/* What preparing answers. */
typedef struct {
    uint32_t number;
    uint32_t word;
} tantsheko_reply;

/* What a question answers: its number, the result or what the refusal names, the cells read in the order read (the
 * places past the count are 0), and how many they are. A question writes every word of it. */
typedef struct {
    uint32_t number;
    uint32_t word;
    uint32_t cells[15];
    uint32_t count;
} tantsheko_answer;

/* What a premium question answers: the answer, and the premium in cents, 0 where it is refused. */
typedef struct {
    tantsheko_answer answer;
    int64_t cents;
} tantsheko_quote;

/* What the check of a sheet answers: 0 and the number of lines, or the refusal and what it names; the amount is 0 but for
 * 14 and 15. */
typedef struct {
    uint32_t number;
    uint32_t word;
    uint32_t amount;
} tantsheko_verdict;

/* The words of a checked sheet. */
#define TANTSHEKO_SHEET_WORDS 8193

/* W: how many words the table of a list of n entries has. */
uint64_t tantsheko_table_words(uint32_t n);

/* How many words of working space preparing needs for n entries. */
uint64_t tantsheko_space_words(uint32_t n);

/* Prepares the table of a list. On acceptance the first W words of the table are written; a refusal leaves it as it was.
 * The first 6n words of the space come back as zero, except after 1, 2 and 3, which leave them as they were. */
void tantsheko_prepare(const uint32_t *parents, size_t parents_len, uint32_t *table, size_t table_len, uint32_t *space,
                       size_t space_len, tantsheko_reply *reply);

/* The class of entry v at depth d: its ancestor there. Reads at most ten cells. */
void tantsheko_level(const uint32_t *table, size_t table_len, uint32_t v, uint32_t d, tantsheko_answer *answer);

/* The entry k climbs above v. Reads at most ten cells. */
void tantsheko_climb(const uint32_t *table, size_t table_len, uint32_t v, uint32_t k, tantsheko_answer *answer);

/* The class of entry v at rating level d: its ancestor at that depth, or v itself where it is less deep. Reads at most ten
 * cells. */
void tantsheko_rating(const uint32_t *table, size_t table_len, uint32_t v, uint32_t d, tantsheko_answer *answer);

/* Whether u is at or above v: the result is 1 or 0. */
void tantsheko_ancestry(const uint32_t *table, size_t table_len, uint32_t u, uint32_t v, tantsheko_answer *answer);

/* The child of u on the way to v. Reads at most fifteen cells. */
void tantsheko_branch(const uint32_t *table, size_t table_len, uint32_t u, uint32_t v, tantsheko_answer *answer);

/* The nearest common ancestor of u and v: the deepest class that holds both, which is the first entry on both climbs to the
 * top. An entry is on its own climb, so two equal entries share themselves. Gives 0, 7 and 9. Lists no cells: their places and
 * their count are 0. */
void tantsheko_nearest_common_ancestor(const uint32_t *table, size_t table_len, uint32_t u, uint32_t v,
                                       tantsheko_answer *answer);

/* The distance of u and v: the number of climbs from u and from v to the class that they share. Otherwise as
 * tantsheko_nearest_common_ancestor. */
void tantsheko_distance(const uint32_t *table, size_t table_len, uint32_t u, uint32_t v, tantsheko_answer *answer);

/* The premium of a sum insured for entry v at rating level d, with the class and the cells of the rating lookup. rates
 * has a rate per million for each entry, from entry 0 on; the premium is sum times the class's rate divided by 10,000, to the
 * nearest cent, a half going away from zero. Writes every word of the answer, and the cents. */
void tantsheko_premium(const uint32_t *table, size_t table_len, const uint32_t *rates, size_t rates_len, uint32_t v,
                       uint32_t d, int64_t sum, tantsheko_answer *answer, int64_t *cents);

/* Checks a sheet of rating level d: a text of at most 4,096 lines `class,from,to,rate` in any order, each ended by a line
 * feed, in digits alone. A line is a class, a band of amounts, ends included, and its rate per million. Each entry of depth d
 * or less is a class, and must have every amount from 0 to 2,000,000,000 in one band only. Refuses, in this order: 9, the first
 * bad line, and the lowest faulty amount of the lowest class at fault, as a gap or an overlap. Lists no cells. */
void tantsheko_sheet(const uint32_t *table, size_t table_len, const uint8_t *text, size_t text_len, uint32_t d,
                     tantsheko_verdict *verdict);

/* As tantsheko_sheet. An accepted sheet is written, in a form for many quotations, to TANTSHEKO_SHEET_WORDS words of the
 * caller's; a refusal leaves them as they were. */
void tantsheko_checked_sheet(const uint32_t *table, size_t table_len, const uint8_t *text, size_t text_len, uint32_t d,
                             uint64_t *sheet, tantsheko_verdict *verdict);

/* The premium of a sum insured for entry v at rating level d, by a sheet, with the class and the cells of the rating lookup:
 * at the rate of the class's band that holds the sum's size. Refuses, in this order: what the rating lookup refuses, what
 * tantsheko_sheet refuses, 12; and last, on a table that preparing did not write, a class without a band for the sum as 14,
 * naming the class and the sum's size. Checks the whole sheet each time. Writes every word of the answer, the amount that 14
 * and 15 name, 0 else, and the cents. */
void tantsheko_price(const uint32_t *table, size_t table_len, const uint8_t *text, size_t text_len, uint32_t v, uint32_t d,
                     int64_t sum, tantsheko_answer *answer, uint32_t *amount, int64_t *cents);

/* The same by a checked sheet, at the level it was checked for: finds the band by halving. On a table that the sheet was not
 * checked for, a class without a band for the sum is 14 likewise. By words that no check wrote the number may be any of 0, 7, 9,
 * 12 and 14. */
void tantsheko_quotation(const uint32_t *table, size_t table_len, const uint64_t *sheet, uint32_t v, int64_t sum,
                     tantsheko_answer *answer, uint32_t *amount, int64_t *cents);

#ifdef __cplusplus
}
#endif

#endif
