/*
 * Each constant of the header held against the library: on one side of it a call is accepted, on the other refused.
 * Prints a line for each that is not so, and ends with 1.
 */
#include <stdio.h>

#include "doumbaht.h"

static int wrong = 0;

static void expect(int holds, const char *what)
{
    if (!holds) {
        printf("constants: not so: %s\n", what);
        wrong = 1;
    }
}

static uint16_t numbers[1024];

static uint8_t deal(int n, int t, int coefficients, int deals)
{
    static const uint16_t f[64] = {1};
    return doumbaht_deal((uint8_t)n, (uint8_t)t, f, (size_t)coefficients, numbers, (size_t)deals);
}

/* The sizes and the lengths of a dealing, for every pair of bytes as n and t. */
static void sizes(void)
{
    for (int n = 0; n < 256; n++) {
        for (int t = 0; t < 256; t++) {
            int legal = DOUMBAHT_T_LEAST <= t && t <= DOUMBAHT_T_MOST && DOUMBAHT_N_LEAST(t) <= n && n <= DOUMBAHT_N_MOST;
            if (!legal) {
                expect(deal(n, t, 4, 20) == DOUMBAHT_WRONG_SIZE, "other sizes are refused");
                continue;
            }
            int f = DOUMBAHT_COEFFICIENTS(t), deals = DOUMBAHT_DEALS(n, t);
            expect(deal(n, t, f, deals) == DOUMBAHT_DONE, "the sizes and lengths are those of a dealing");
            expect(deal(n, t, f - 1, deals) == DOUMBAHT_WRONG_LENGTH, "COEFFICIENTS is the dealer's list");
            expect(deal(n, t, f, deals - 1) == DOUMBAHT_WRONG_LENGTH, "DEALS is the list of deals");
        }
    }
}

static void modulus(void)
{
    const uint16_t last[] = {DOUMBAHT_MODULUS - 1, 0, 0, 0}, first[] = {DOUMBAHT_MODULUS, 0, 0, 0};
    expect(doumbaht_deal(5, 1, last, 4, numbers, 20) == DOUMBAHT_DONE, "below the prime is a secret");
    expect(doumbaht_deal(5, 1, first, 4, numbers, 20) == DOUMBAHT_NOT_RESIDUE, "the prime is none");
    /* A deal is a row, then a column: lamp 2's stands behind lamp 1's. */
    const uint16_t f[] = {7, 2, 3, 4};
    doumbaht_deal(5, 1, f, 4, numbers, 20);
    expect(numbers[DOUMBAHT_DEAL(1)] == 11 && numbers[DOUMBAHT_DEAL(1) + DOUMBAHT_COLUMN(1)] == 13, "DEAL is a deal");
}

/* Five lamps that all publish one number: they open it, unless it means that they did not. */
static uint8_t all_publish(uint16_t number)
{
    const uint16_t shares[] = {number, number, number, number, number};
    uint16_t opened = 0;
    return doumbaht_open(5, 1, shares, 5, &opened);
}

static void not_sent(void)
{
    expect(all_publish(DOUMBAHT_MODULUS - 1) == DOUMBAHT_DONE, "below the prime is a share");
    expect(all_publish(DOUMBAHT_MODULUS) == DOUMBAHT_NO_OPENING, "the prime is none");
    expect(all_publish(DOUMBAHT_NOT_SENT) == DOUMBAHT_NO_OPENING, "NOT_SENT is none");
}

static uint32_t wide_numbers[20];

/* A dealing of this secret, and an opening of five of this number. */
static uint8_t wide_deal(uint32_t secret)
{
    const uint32_t f[] = {secret, 0, 0, 0};
    return doumbaht_deal_wide(5, 1, f, 4, wide_numbers, 20);
}

static uint8_t wide_open(uint32_t number)
{
    const uint32_t shares[] = {number, number, number, number, number};
    uint32_t opened = 0;
    return doumbaht_open_wide(5, 1, shares, 5, &opened);
}

/* A dealing, an opening and a repair of zeros, at the points 1 to 5 but for the last. */
static int wide_answer(uint32_t last, uint8_t answer)
{
    const uint32_t table[] = {1, 2, 3, 4, last}, zeros[5] = {0};
    uint32_t opened = 0;
    return doumbaht_deal_wide_with(5, 1, table, 5, zeros, 4, wide_numbers, 20) == answer &&
           doumbaht_open_wide_with(5, 1, table, 5, zeros, 5, &opened) == answer &&
           doumbaht_repair_wide(1, table, 5, zeros, 5, wide_numbers, 2) == answer;
}

static void wide(void)
{
    expect(wide_deal(DOUMBAHT_WIDE_MODULUS - 1) == DOUMBAHT_DONE, "below the wide prime is a secret");
    expect(wide_numbers[2] == DOUMBAHT_WIDE_MODULUS - 1, "and every lamp's share, where the rest is 0");
    expect(wide_deal(DOUMBAHT_WIDE_MODULUS) == DOUMBAHT_NOT_RESIDUE, "the wide prime is none");
    expect(wide_open(DOUMBAHT_WIDE_MODULUS - 1) == DOUMBAHT_DONE, "below the wide prime is a share");
    expect(wide_open(DOUMBAHT_WIDE_MODULUS) == DOUMBAHT_NO_OPENING, "the wide prime is none");
    expect(wide_open(DOUMBAHT_WIDE_NOT_SENT) == DOUMBAHT_NO_OPENING, "WIDE_NOT_SENT is none");
    expect(wide_answer(DOUMBAHT_WIDE_MODULUS - 1, DOUMBAHT_DONE), "below the wide prime is a point");
    expect(wide_answer(DOUMBAHT_WIDE_MODULUS, DOUMBAHT_WRONG_TABLE), "the wide prime is none");
    expect(wide_answer(0, DOUMBAHT_WRONG_TABLE), "nor is 0");
}

static uint8_t repair(int t, int points, int room)
{
    static const uint16_t xs[] = {1, 2, 3, 4, 5, 6, 7, 8, 9, 10, 11, 12, 13, 14, 15, 16, 17};
    static const uint16_t ys[17] = {0};
    return doumbaht_repair((uint8_t)t, xs, (size_t)points, ys, (size_t)points, numbers, (size_t)room);
}

static void points(void)
{
    for (int t = DOUMBAHT_T_LEAST; t <= DOUMBAHT_T_MOST; t++) {
        int room = DOUMBAHT_COLUMN(t);
        expect(repair(t, DOUMBAHT_POINTS_LEAST(t), room) == DOUMBAHT_DONE, "POINTS_LEAST are enough");
        expect(repair(t, DOUMBAHT_POINTS_LEAST(t) - 1, room) == DOUMBAHT_WRONG_LENGTH, "fewer are not");
        expect(repair(t, DOUMBAHT_N_MOST, room) == DOUMBAHT_DONE, "N_MOST points can be had");
        expect(repair(t, DOUMBAHT_N_MOST + 1, room) == DOUMBAHT_WRONG_LENGTH, "more cannot");
        expect(repair(t, DOUMBAHT_N_MOST, room + 1) == DOUMBAHT_WRONG_LENGTH, "COLUMN is a column");
    }
    expect(repair(DOUMBAHT_T_MOST + 1, DOUMBAHT_N_MOST, 5) == DOUMBAHT_WRONG_SIZE, "T_MOST is the most");
    const uint16_t xs[] = {1, 2, 3, 4}, ys[] = {0, 0, 1, 1};
    expect(doumbaht_repair(1, xs, 4, ys, 4, numbers, 2) == DOUMBAHT_NO_COLUMN, "two against two fit no line");
}

/* A dealing of zeros, an opening of zeros and a repair from zeros, at the points 1 to 5 but for the last. */
static int all_answer(uint16_t last, uint8_t answer)
{
    const uint16_t table[] = {1, 2, 3, 4, last}, zeros[5] = {0};
    uint16_t opened = 0;
    return doumbaht_deal_with(5, 1, table, 5, zeros, 4, numbers, 20) == answer &&
           doumbaht_open_with(5, 1, table, 5, zeros, 5, &opened) == answer &&
           doumbaht_repair(1, table, 5, zeros, 5, numbers, 2) == answer;
}

static void tables(void)
{
    const uint16_t table[] = {1, 2, 3, 4, 0, 6}, f[] = {DOUMBAHT_MODULUS, 0, 0, 0}, shares[] = {0, 0, 0, 1, 1};
    uint16_t opened = 0;
    expect(all_answer(DOUMBAHT_MODULUS - 1, DOUMBAHT_DONE), "below the prime is a point");
    expect(all_answer(DOUMBAHT_MODULUS, DOUMBAHT_WRONG_TABLE), "the prime is none");
    expect(all_answer(DOUMBAHT_NOT_SENT, DOUMBAHT_WRONG_TABLE), "nor is what was not sent");
    expect(all_answer(0, DOUMBAHT_WRONG_TABLE), "nor is 0");
    expect(all_answer(1, DOUMBAHT_WRONG_TABLE), "no point is there twice");
    for (size_t count = 4; count <= 6; count += 2) {
        expect(doumbaht_deal_with(5, 1, table, count, f, 4, numbers, 20) == DOUMBAHT_WRONG_LENGTH, "n points to deal at");
        expect(doumbaht_open_with(5, 1, table, count, shares, 5, &opened) == DOUMBAHT_WRONG_LENGTH, "n points to open at");
    }
    expect(doumbaht_deal_with(5, 1, table, 5, f, 4, numbers, 20) == DOUMBAHT_WRONG_TABLE, "the table before `f`");
    expect(doumbaht_open_with(5, 1, table, 5, shares, 5, &opened) == DOUMBAHT_WRONG_TABLE, "and before what fits");
    expect(doumbaht_deal_with(5, 1, table, 5, f, 4, numbers, 19) == DOUMBAHT_WRONG_LENGTH, "lengths before the table");
    expect(doumbaht_deal_with(5, 2, table, 6, f, 4, numbers, 20) == DOUMBAHT_WRONG_SIZE, "sizes before lengths");
}

/* The directory of the largest sizes, with zeros behind it: a record of nobody's, "size 16 3" and not "record refused 6". */
static void text(void)
{
    static const uint8_t bytes[DOUMBAHT_RECORD_MOST] = {16, 3, 0, 18, 1, 0, 1, 18, 4, 0, 5, 18, 0, 32, 5, 50, 0, 32};
    uint8_t out[DOUMBAHT_TEXT] = {0};
    doumbaht_text(bytes, sizeof bytes, out, sizeof out);
    expect(out[0] == 's', "RECORD_MOST is the longest record");
    doumbaht_text(bytes, sizeof bytes - 1, out, sizeof out);
    expect(out[0] == 'r', "a byte less is none");
    expect(doumbaht_text(bytes, sizeof bytes, out, sizeof out) != 0, "TEXT bytes are enough");
    expect(doumbaht_text(bytes, sizeof bytes, out, sizeof out - 1) == 0, "fewer are not");
    static const uint8_t wide[DOUMBAHT_WIDE_RECORD_MOST] = {144, 3, 0, 18, 2, 0, 2, 18, 8, 0, 10, 18, 0, 32, 10, 50, 0, 64};
    doumbaht_text(wide, sizeof wide, out, sizeof out);
    expect(out[0] == 's', "WIDE_RECORD_MOST is the longest wide record");
    doumbaht_text(wide, sizeof wide - 1, out, sizeof out);
    expect(out[0] == 'r', "a byte less is none");
}

int main(void)
{
    sizes();
    modulus();
    not_sent();
    wide();
    points();
    tables();
    text();
    return wrong;
}
