/*
 * The library from C with the lamps' points in a table: a dealing, an opening and a repair at a harbour's station numbers,
 * the same numbers in another order, and tables that are refused. Prints what stands in `stations.expected` beside it.
 */
#include <stdio.h>

#include "doumbaht.h"

#define COUNT(list) (sizeof(list) / sizeof((list)[0]))

enum { N = 5, T = 1 };

static const uint16_t stations[N] = {40961, 7, 65520, 3, 21000};
static const uint16_t rising[N] = {3, 7, 21000, 40961, 65520};
/* Numbers in a row, and the points of lamps without a table. */
static const uint16_t in_a_row[N] = {101, 102, 103, 104, 105};
static const uint16_t one_to_n[N] = {1, 2, 3, 4, 5};

/* F = 7 + 3X + 2Y + 4XY. At x the row is 7 + 2x, 3 + 4x, and the column 7 + 3x, 2 + 4x, less multiples of the prime. */
static const uint16_t f[DOUMBAHT_COEFFICIENTS(T)] = {7, 2, 3, 4};

static void print_list(const char *word, const uint16_t *list, size_t count)
{
    printf(" %s", word);
    for (size_t k = 0; k < count; k++) {
        printf(" %u", (unsigned)list[k]);
    }
}

/* Prints each lamp's deal, and keeps its share. */
static void deal(const uint16_t *table, uint16_t *shares)
{
    uint16_t deals[DOUMBAHT_DEALS(N, T)] = {0};
    uint8_t refusal = doumbaht_deal_with(N, T, table, N, f, COUNT(f), deals, COUNT(deals));
    if (refusal != DOUMBAHT_DONE) {
        printf("deal refused %u\n", (unsigned)refusal);
        return;
    }
    for (int i = 1; i <= N; i++) {
        const uint16_t *row = deals + (i - 1) * DOUMBAHT_DEAL(T), *column = row + DOUMBAHT_COLUMN(T);
        printf("lamp %d point %u", i, (unsigned)table[i - 1]);
        print_list("row", row, DOUMBAHT_COLUMN(T));
        print_list("column", column, DOUMBAHT_COLUMN(T));
        printf("\n");
        shares[i - 1] = column[0];
    }
}

/* Opens the shares, lamp 3's being `third` instead of its own. */
static void open_shares(const uint16_t *table, const uint16_t *shares, uint16_t third)
{
    const uint16_t published[N] = {shares[0], shares[1], third, shares[3], shares[4]};
    uint16_t opened = 0;
    uint8_t refusal = doumbaht_open_with(N, T, table, N, published, COUNT(published), &opened);
    uint16_t located = 0;
    if (doumbaht_open_by_locator_with(N, T, table, N, published, COUNT(published), &located) != refusal || located != opened) {
        printf("the locator answers otherwise\n");
    }
    if (refusal != DOUMBAHT_DONE) {
        printf("opened refused %u\n", (unsigned)refusal);
        return;
    }
    printf("opened %u\n", (unsigned)opened);
}

/* Lamp 5's column, from what lamps 1 to 4 said first: F(21000, y) at their points y, but that lamp 2 lies. */
static void repair(void)
{
    const uint16_t said[] = {33614, 999, 44526, 52929};
    uint16_t column[DOUMBAHT_COLUMN(T)] = {0};
    uint8_t refusal = doumbaht_repair(T, stations, COUNT(said), said, COUNT(said), column, COUNT(column));
    if (refusal != DOUMBAHT_DONE) {
        printf("repair refused %u\n", (unsigned)refusal);
        return;
    }
    printf("repaired");
    print_list("column", column, COUNT(column));
    printf("\n");
}

/* What a dealing, an opening and a repair at these points are refused with. */
static void refused(const char *what, const uint16_t *table, size_t count)
{
    const uint16_t zeros[N + 1] = {0};
    uint16_t deals[DOUMBAHT_DEALS(N, T)] = {0}, column[DOUMBAHT_COLUMN(T)] = {0}, opened = 0;
    unsigned dealt = doumbaht_deal_with(N, T, table, count, f, COUNT(f), deals, COUNT(deals));
    unsigned open = doumbaht_open_with(N, T, table, count, zeros, N, &opened);
    unsigned repaired = doumbaht_repair(T, table, count, zeros, count, column, COUNT(column));
    printf("%s: deal %u open %u repair %u\n", what, dealt, open, repaired);
}

static void bad_tables(void)
{
    const uint16_t zero[N] = {40961, 7, 65520, 0, 21000};
    const uint16_t above[N] = {40961, 7, 65521, 3, 21000};
    const uint16_t twice[N] = {40961, 7, 65520, 3, 40961};
    const uint16_t more[N + 1] = {40961, 7, 65520, 3, 21000, 9};
    refused("none bad", stations, N);
    refused("0", zero, N);
    refused("65521", above, N);
    refused("one twice", twice, N);
    /* A repair takes as many points as lamps are heard. */
    refused("one short", stations, N - 1);
    refused("one more", more, N + 1);
    refused("one short, 0", zero, N - 1);
}

int main(void)
{
    uint16_t shares[N] = {0}, others[N] = {0};
    deal(stations, shares);
    open_shares(stations, shares, 999);
    repair();
    /* The same numbers in another order: other deals, the same secret. The first shares do not open with this table. */
    deal(rising, others);
    open_shares(rising, others, 999);
    open_shares(rising, shares, shares[2]);
    /* That is not always refused: nothing shows for which table a share was made, and another number may be opened. */
    deal(in_a_row, others);
    open_shares(one_to_n, others, others[2]);
    bad_tables();
    if (fflush(stdout) != 0 || ferror(stdout)) {
        perror("standard output");
        return 1;
    }
    return 0;
}
