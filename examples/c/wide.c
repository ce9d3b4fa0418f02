/*
 * The library from C with numbers of 32 bits: a dealing, an opening and a repair modulo 2,147,483,647, at the points 1 to n
 * and at station numbers that 16 bits do not hold, and what is refused. Prints what stands in `wide.expected` beside it.
 */
#include <stdio.h>

#include "doumbaht.h"

#define COUNT(list) (sizeof(list) / sizeof((list)[0]))

enum { N = 5, T = 1 };

static const uint32_t one_to_n[N] = {1, 2, 3, 4, 5};
static const uint32_t stations[N] = {70001, 7, 2147483646, 3, 1000000000};

/* F = 2147483646 + 3X + 2Y + 4XY: the secret is the largest that there is. */
static const uint32_t f[DOUMBAHT_COEFFICIENTS(T)] = {2147483646, 2, 3, 4};

static void print_list(const char *word, const uint32_t *list, size_t count)
{
    printf(" %s", word);
    for (size_t k = 0; k < count; k++) {
        printf(" %lu", (unsigned long)list[k]);
    }
}

/* Prints each lamp's deal, and keeps its share. */
static void print_deals(const uint32_t *table, const uint32_t *deals, uint32_t *shares)
{
    for (int i = 1; i <= N; i++) {
        const uint32_t *row = deals + (i - 1) * DOUMBAHT_DEAL(T), *column = row + DOUMBAHT_COLUMN(T);
        printf("lamp %d point %lu", i, (unsigned long)table[i - 1]);
        print_list("row", row, DOUMBAHT_COLUMN(T));
        print_list("column", column, DOUMBAHT_COLUMN(T));
        printf("\n");
        shares[i - 1] = column[0];
    }
}

/* Opens the shares by trial and by an error locator, with a table or, where there is none, without. */
static void open_shares(const uint32_t *table, const uint32_t *shares)
{
    uint32_t opened = 0, located = 0;
    uint8_t refusal = table ? doumbaht_open_wide_with(N, T, table, N, shares, N, &opened)
                            : doumbaht_open_wide(N, T, shares, N, &opened);
    uint8_t other = table ? doumbaht_open_by_locator_wide_with(N, T, table, N, shares, N, &located)
                          : doumbaht_open_by_locator_wide(N, T, shares, N, &located);
    if (other != refusal || located != opened) {
        printf("the locator answers otherwise\n");
    }
    if (refusal != DOUMBAHT_DONE) {
        printf("opened refused %u\n", (unsigned)refusal);
        return;
    }
    printf("opened %lu\n", (unsigned long)opened);
}

/* Without a table: a dealing, an opening in which lamp 3 lies, one in which lamp 4 is dark besides, and one in which both lie. */
static void without(void)
{
    uint32_t deals[DOUMBAHT_DEALS(N, T)] = {0}, shares[N] = {0};
    if (doumbaht_deal_wide(N, T, f, COUNT(f), deals, COUNT(deals)) != DOUMBAHT_DONE) {
        printf("deal refused\n");
        return;
    }
    print_deals(one_to_n, deals, shares);
    shares[2] = 999;
    open_shares(NULL, shares);
    shares[3] = DOUMBAHT_WIDE_NOT_SENT;
    open_shares(NULL, shares);
    shares[3] = 998;
    open_shares(NULL, shares);
}

/* With one: a dealing, an opening in which lamp 3 sent nothing, and lamp 5's column from what lamps 1 to 4 said first. */
static void with_stations(void)
{
    uint32_t deals[DOUMBAHT_DEALS(N, T)] = {0}, shares[N] = {0};
    if (doumbaht_deal_wide_with(N, T, stations, N, f, COUNT(f), deals, COUNT(deals)) != DOUMBAHT_DONE) {
        printf("deal refused\n");
        return;
    }
    print_deals(stations, deals, shares);
    shares[2] = DOUMBAHT_WIDE_NOT_SENT;
    open_shares(stations, shares);
    /* F(1000000000, y) at their points y, but that lamp 2 lies. */
    const uint32_t said[] = {902374965, 999, 1147483644, 2115098123};
    uint32_t column[DOUMBAHT_COLUMN(T)] = {0};
    uint8_t refusal = doumbaht_repair_wide(T, stations, COUNT(said), said, COUNT(said), column, COUNT(column));
    printf("repaired %u", (unsigned)refusal);
    print_list("column", column, COUNT(column));
    printf("\n");
}

/* Numbers from the prime up are no coefficients and no points. */
static void refused(void)
{
    const uint32_t prime[DOUMBAHT_COEFFICIENTS(T)] = {DOUMBAHT_WIDE_MODULUS, 2, 3, 4};
    const uint32_t table[N] = {70001, 7, DOUMBAHT_WIDE_MODULUS, 3, 1000000000};
    uint32_t deals[DOUMBAHT_DEALS(N, T)] = {0};
    unsigned secret = doumbaht_deal_wide(N, T, prime, COUNT(prime), deals, COUNT(deals));
    unsigned point = doumbaht_deal_wide_with(N, T, table, N, prime, COUNT(prime), deals, COUNT(deals));
    unsigned room = doumbaht_deal_wide(N, T, prime, COUNT(prime), deals, COUNT(deals) - 1);
    unsigned size = doumbaht_deal_wide(N, T + 1, prime, COUNT(prime), deals, COUNT(deals) - 1);
    printf("refused: the prime as secret %u, as a point %u, no room %u, sizes %u\n", secret, point, room, size);
}

int main(void)
{
    without();
    with_stations();
    refused();
    if (fflush(stdout) != 0 || ferror(stdout)) {
        perror("standard output");
        return 1;
    }
    return 0;
}
