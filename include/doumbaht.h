/*
 * Doumbaht: verifiable secret sharing with t faulty among n lamps, modulo 65,521 or 2,147,483,647, for C and what
 * speaks C.
 *
 * The functions are those of crates/exports, built by `rt lib` in that folder into crates/exports/out/libexports.a.
 * Each is proved to answer what its contract there says, for every argument, and to return. What the words mean
 * (lamp, deal, row, column, report, happy set, fit) stands in docs/PROTOCOL.md.
 *
 * A list is a pointer and the count of its numbers. What no proof can see is the caller's to keep: every pointer,
 * that of `opened` too, is valid for that many numbers, aligned, and not null even where the count is 0; what is
 * written overlaps nothing else of the same call, and nothing else changes a list while the call runs.
 *
 * A harbour uses numbers of 16 bits modulo MODULUS, or, wide, numbers of 32 bits modulo WIDE_MODULUS. The functions for
 * the latter end in `_wide` or have it before `_with`: each answers and refuses as the one without it, of the other prime.
 * Deals, points and published shares of one are nothing to the other, and do not say which they are.
 *
 * A `uint8_t` answer is DOUMBAHT_DONE, or the number of the refusal: the lowest that applies, except that 14 comes right
 * after 3. A list or a number lent for writing is written where the answer is DOUMBAHT_DONE, and holds what it held
 * otherwise.
 */
#ifndef DOUMBAHT_H
#define DOUMBAHT_H

#include <stddef.h>
#include <stdint.h>

/* The version of this header and of the library built from the same tree; as one number, 10203 is 1.2.3. */
#define DOUMBAHT_VERSION_MAJOR 0
#define DOUMBAHT_VERSION_MINOR 6
#define DOUMBAHT_VERSION_PATCH 1
#define DOUMBAHT_VERSION (10000 * DOUMBAHT_VERSION_MAJOR + 100 * DOUMBAHT_VERSION_MINOR + DOUMBAHT_VERSION_PATCH)

/* The prime: secrets, coefficients and shares are below it. */
#define DOUMBAHT_MODULUS 65521
/* What a sender writes for "not sent". In every message but a report each number from the prime up means it. */
#define DOUMBAHT_NOT_SENT 65535
/* The same of a wide harbour. */
#define DOUMBAHT_WIDE_MODULUS UINT32_C(2147483647)
#define DOUMBAHT_WIDE_NOT_SENT UINT32_C(4294967295)

/* The sizes: t from T_LEAST to T_MOST, n from N_LEAST(t) to N_MOST. */
#define DOUMBAHT_T_LEAST 1
#define DOUMBAHT_T_MOST 3
#define DOUMBAHT_N_LEAST(t) (4 * (t) + 1)
#define DOUMBAHT_N_MOST 16

/* How many numbers a row or a column has, a deal (a row, then a column), all deals, and the dealer's list. */
#define DOUMBAHT_COLUMN(t) ((t) + 1)
#define DOUMBAHT_DEAL(t) (2 * DOUMBAHT_COLUMN(t))
#define DOUMBAHT_DEALS(n, t) ((n) * DOUMBAHT_DEAL(t))
#define DOUMBAHT_COEFFICIENTS(t) (DOUMBAHT_COLUMN(t) * DOUMBAHT_COLUMN(t))
/* The fewest points that a column is repaired from; the most are N_MOST. */
#define DOUMBAHT_POINTS_LEAST(t) (3 * (t) + 1)

/*
 * A table is a list of n numbers, the lamps' points, lamp i's at place i-1: the harbour's station numbers, say. They may
 * be in any order; none is 0, none is the prime or above, and none is there twice. Without a table lamp i's point is i.
 * All lamps of a harbour and the desk load the same table, in the same order: a deal or a share does not say for which
 * points it was made, and with another table an opening may answer another number without a refusal. A record has no
 * table: its numbers are for the points 1 to n, and so is its text.
 */

/* The bytes of the longest record, narrow and wide, and those that are enough for any text. */
#define DOUMBAHT_RECORD_MOST 1362
#define DOUMBAHT_WIDE_RECORD_MOST 2674
#define DOUMBAHT_TEXT 512

/* Whether lamp i, from 1, is in a set. */
#define DOUMBAHT_HAS(set, i) ((((set) >> ((i)-1)) & 1) != 0)

/* Why a call is refused. The functions below answer some of these numbers; in the text of a record stand others. */
enum doumbaht_refusal {
    DOUMBAHT_DONE = 0,             /* not refused */
    DOUMBAHT_WRONG_SIZE = 1,       /* n or t is not within the sizes */
    DOUMBAHT_WRONG_NUMBER = 2,     /* a lamp's number is not 1 to n */
    DOUMBAHT_WRONG_LENGTH = 3,     /* a list has not the length that it must have */
    DOUMBAHT_WRONG_STAGE = 4,      /* the lamp is not at a stage that takes this call */
    DOUMBAHT_NOT_RESIDUE = 5,      /* a number of the dealer's list is not below the prime */
    DOUMBAHT_WRONG_DIRECTORY = 6,  /* the record's directory is wrong */
    DOUMBAHT_ALTERED_REPORT = 7,   /* a lamp's report in the list of reports is not the one it gave */
    DOUMBAHT_DEALER_REJECTED = 8,  /* no n - t lamps all agree */
    DOUMBAHT_NO_COLUMN = 9,        /* no polynomial fits the points of a repair */
    DOUMBAHT_NO_OPENING = 10,      /* no polynomial fits the published shares: over t are wrong, or under 2t+1 true */
    DOUMBAHT_WRONG_TABLE = 14,     /* a table's number, or a point of a repair, is 0, the prime or above, or there twice */
    DOUMBAHT_WRONG_WIDTH = 18      /* a call of the other prime than the lamp's */
};

#ifdef __cplusplus
extern "C" {
#endif

/*
 * Deals F to lamps 1 to n: `f` holds its COEFFICIENTS(t) coefficients, that of X^u Y^v at place u(t+1)+v, the secret at
 * place 0. `deals` holds DEALS(n, t) numbers: for each lamp in turn its row F(X,i), then its column F(i,Y), constants
 * first. The share of an honest lamp i is its column's constant, deals[(i-1) * DEAL(t) + COLUMN(t)]. Refused with
 * WRONG_SIZE, WRONG_LENGTH (either list), NOT_RESIDUE.
 */
uint8_t doumbaht_deal(uint8_t n, uint8_t t, const uint16_t *f, size_t f_count, uint16_t *deals, size_t deals_count);

/* The same, wide. */
uint8_t doumbaht_deal_wide(uint8_t n, uint8_t t, const uint32_t *f, size_t f_count, uint32_t *deals, size_t deals_count);

/*
 * Dealing with the lamps' points in a table: a lamp with the point x has the row F(X,x) and the column F(x,Y). Refused
 * with WRONG_SIZE, WRONG_LENGTH (any of the lists; `table` has n numbers), WRONG_TABLE, NOT_RESIDUE, in this order.
 */
uint8_t doumbaht_deal_with(uint8_t n, uint8_t t, const uint16_t *table, size_t table_count, const uint16_t *f,
                           size_t f_count, uint16_t *deals, size_t deals_count);

/* The same, wide. */
uint8_t doumbaht_deal_wide_with(uint8_t n, uint8_t t, const uint32_t *table, size_t table_count, const uint32_t *f,
                                size_t f_count, uint32_t *deals, size_t deals_count);

/*
 * Answers the happy set: the largest set of lamps that all agree by the reports, bit i-1 for lamp i. Two lamps agree
 * if each has a one for the other; own bits and bits behind the last report are ignored. Of equally large sets one with
 * lamp 1 is preferred, then one with lamp 2, and so on. With fewer than n - t lamps in it the dealer is rejected; that is
 * for the caller to count. 0, which is no happy set, for no reports and for more than N_MOST.
 */
uint16_t doumbaht_happy_set(const uint16_t *reports, size_t reports_count);

/*
 * Repairs a column from the points (xs[i], ys[i]): writes the COLUMN(t) coefficients, constant first, of the polynomial
 * of degree at most t from which at most t of the points differ; one with a y that was not sent always differs. At most
 * one polynomial fits. The `xs` are lamps' points: with a table, numbers of it. Refused with WRONG_SIZE for t;
 * WRONG_LENGTH unless there are as many `ys` as `xs`, POINTS_LEAST(t) to N_MOST of them, and COLUMN(t) places in
 * `column`; WRONG_TABLE if one of the `xs` is 0, the prime or above, or there twice; NO_COLUMN; in this order.
 */
uint8_t doumbaht_repair(uint8_t t, const uint16_t *xs, size_t xs_count, const uint16_t *ys, size_t ys_count,
                        uint16_t *column, size_t column_count);

/* The same, wide. */
uint8_t doumbaht_repair_wide(uint8_t t, const uint32_t *xs, size_t xs_count, const uint32_t *ys, size_t ys_count,
                             uint32_t *column, size_t column_count);

/*
 * Opens the published shares of lamps 1 to n, by themselves: writes to `opened` the constant of the polynomial of
 * degree at most t with which at least 2t+1 of them agree, and from which at most t of those sent differ; a lamp that is
 * dark has NOT_SENT, or any number from the prime up, and never 0, which is a share. At most one polynomial fits. A lamp
 * that holds a share puts it into its own place first. Refused with WRONG_SIZE, WRONG_LENGTH unless there are n shares,
 * NO_OPENING: more than t shares are wrong, or fewer than 2t+1 are there and true. With 3t+1 shares there, at most t of
 * them wrong, it always opens. More than t wrong shares may open another number: that of a polynomial on which they lie,
 * and with them as many as t true ones.
 */
uint8_t doumbaht_open(uint8_t n, uint8_t t, const uint16_t *shares, size_t shares_count, uint16_t *opened);

/* The same, wide: a lamp that is dark has WIDE_NOT_SENT; 65,535 is a share like any other. */
uint8_t doumbaht_open_wide(uint8_t n, uint8_t t, const uint32_t *shares, size_t shares_count, uint32_t *opened);

/*
 * Opening with the lamps' points in the table that they were dealt with. Refused with WRONG_SIZE, WRONG_LENGTH unless
 * there are n shares and n numbers in `table`, WRONG_TABLE, NO_OPENING, in this order.
 */
uint8_t doumbaht_open_with(uint8_t n, uint8_t t, const uint16_t *table, size_t table_count, const uint16_t *shares,
                           size_t shares_count, uint16_t *opened);

/* The same, wide. */
uint8_t doumbaht_open_wide_with(uint8_t n, uint8_t t, const uint32_t *table, size_t table_count, const uint32_t *shares,
                                size_t shares_count, uint32_t *opened);

/*
 * Opening by an error locator, after Berlekamp and Welch, where the four functions above try one polynomial after the other.
 * Parameters, answers and refusals are those of the function without `_by_locator`, for every list. On most lists that one
 * takes less time; this one takes less stack, tells sooner that too few are lit, and can be quicker where points stand in
 * a table and lamps are dark. docs/PERFORMANCE.md has both.
 */
uint8_t doumbaht_open_by_locator(uint8_t n, uint8_t t, const uint16_t *shares, size_t shares_count, uint16_t *opened);

/* The same, wide. */
uint8_t doumbaht_open_by_locator_wide(uint8_t n, uint8_t t, const uint32_t *shares, size_t shares_count, uint32_t *opened);

/* With a table. */
uint8_t doumbaht_open_by_locator_with(uint8_t n, uint8_t t, const uint16_t *table, size_t table_count,
                                      const uint16_t *shares, size_t shares_count, uint16_t *opened);

/* The same, wide. */
uint8_t doumbaht_open_by_locator_wide_with(uint8_t n, uint8_t t, const uint32_t *table, size_t table_count,
                                           const uint32_t *shares, size_t shares_count, uint32_t *opened);

/*
 * Writes the text of a record, narrow or wide, what the program `bench` prints for these bytes, over the front of `out`, with no 0
 * behind it, and answers its length. `out` needs TEXT bytes, as many as are enough for any text: with less it is left
 * alone, and the answer is 0. No text is empty.
 */
size_t doumbaht_text(const uint8_t *bytes, size_t bytes_count, uint8_t *out, size_t out_count);

#ifdef __cplusplus
}
#endif

#endif
