/*
 * The label monitor's functions for C: the comparison of two formulas, and the reader of the docket.
 * Nothing here allocates, keeps a pointer, or writes anywhere but through `out`.
 */
#ifndef YARD_H
#define YARD_H

#include <stddef.h>
#include <stdint.h>

/*
 * Formulas are lists of clauses, two bytes a clause, high byte first. A clause is a set of the parties
 * 0 to 15, party k being the bit worth 2 to the k, and is read as "one of these".
 */
enum yard_comparison {
    /* some group meets the first formula and not the second */
    YARD_NO = 0,
    /* every group that meets the first formula meets the second */
    YARD_YES = 1,
    /* the first list has more than 64 clauses */
    YARD_FIRST_LONG = 101,
    /* the first list, reduced, has more than 8 clauses */
    YARD_FIRST_LARGE = 102,
    /* the first list has an odd number of bytes */
    YARD_FIRST_MISSING = 119,
    /* the same of the second list; the first is judged before it */
    YARD_SECOND_LONG = 201,
    YARD_SECOND_LARGE = 202,
    YARD_SECOND_MISSING = 219
};

/* Tells whether the first list implies the second: one of enum yard_comparison. */
uint32_t yard_compare(const uint8_t *first, size_t first_len, const uint8_t *second, size_t second_len);

/* What stands at a place of the docket. */
enum yard_reading {
    /* an entry: the structure is filled */
    YARD_ENTRY = 0,
    /* the place is the docket's end */
    YARD_OVER = 1,
    /* bits of a field are missing, or the place lies beyond the docket's end */
    YARD_MISSING = 19,
    /* a field's content is unlawful */
    YARD_UNLAWFUL = 20
};

/* One decision on a release or an endorsement. */
struct yard_entry {
    /* 0 for a release, 1 for an endorsement */
    uint32_t kind;
    /* the question that refused the call: 5, 6, or 12 to 16; 0 where it was granted */
    uint32_t question;
    uint64_t task;
    uint64_t record;
    /* the place of the next entry */
    uint64_t next;
    /* the group that question 16 brings, else 0 */
    uint16_t group;
    /* how many clauses the new formula has, and the clauses, with 0 in the places behind them */
    uint16_t count;
    uint16_t clauses[8];
};

/*
 * Reads what stands at a place: one of enum yard_reading. `out` is filled at YARD_ENTRY, and left as it
 * was otherwise.
 */
uint32_t yard_read_entry(const uint8_t *docket, size_t len, uint64_t place, struct yard_entry *out);

#endif
