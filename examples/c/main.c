/*
 * The library from C: the protocol's marked cases M1 to M4 and M10, openings with lamps dark, each by trial and by an error
 * locator, the repair of M7, and the text of the record whose path is the argument. Prints what stands in `expected` beside it.
 */
#include <stdio.h>

#include "doumbaht.h"

#define COUNT(list) (sizeof(list) / sizeof((list)[0]))

enum { N = 5, T = 1 };

static void print_list(const char *word, const uint16_t *list, size_t count)
{
    printf(" %s", word);
    for (size_t k = 0; k < count; k++) {
        printf(" %u", (unsigned)list[k]);
    }
}

/* F = 7 + 3X + 2Y + 4XY: the coefficient of X^u Y^v at place 2u + v. */
static void deal(void)
{
    const uint16_t f[] = {7, 2, 3, 4};
    uint16_t deals[DOUMBAHT_DEALS(N, T)] = {0};
    uint8_t refusal = doumbaht_deal(N, T, f, COUNT(f), deals, COUNT(deals));
    if (refusal != DOUMBAHT_DONE) {
        printf("deal refused %u\n", (unsigned)refusal);
        return;
    }
    for (int lamp = 1; lamp <= N; lamp += 4) {
        const uint16_t *own = deals + (lamp - 1) * DOUMBAHT_DEAL(T);
        printf("lamp %d", lamp);
        print_list("row", own, DOUMBAHT_COLUMN(T));
        print_list("column", own + DOUMBAHT_COLUMN(T), DOUMBAHT_COLUMN(T));
        printf("\n");
    }
}

/* The error locator answers the same. */
static void open_by_locator(const uint16_t *shares, size_t count)
{
    uint16_t opened = 0, located = 0;
    uint8_t refusal = doumbaht_open(N, T, shares, count, &opened);
    if (doumbaht_open_by_locator(N, T, shares, count, &located) != refusal || located != opened) {
        printf("the locator answers otherwise\n");
    }
}

static void open_shares(const uint16_t *shares, size_t count)
{
    open_by_locator(shares, count);
    uint16_t opened = 0;
    uint8_t refusal = doumbaht_open(N, T, shares, count, &opened);
    if (refusal != DOUMBAHT_DONE) {
        printf("opened refused %u\n", (unsigned)refusal);
        return;
    }
    printf("opened %u\n", (unsigned)opened);
}

/* Lamp 5's column, from what the happy lamps 1 to 4 said first. */
static void repair(void)
{
    const uint16_t xs[] = {1, 2, 3, 4};
    const uint16_t ys[] = {44, 66, 88, 110};
    uint16_t column[DOUMBAHT_COLUMN(T)] = {0};
    uint8_t refusal = doumbaht_repair(T, xs, COUNT(xs), ys, COUNT(ys), column, COUNT(column));
    if (refusal != DOUMBAHT_DONE) {
        printf("repair refused %u\n", (unsigned)refusal);
        return;
    }
    printf("repaired");
    print_list("column", column, COUNT(column));
    printf("\n");
}

/* Lamps 1 and 2 disagree, and 1 and 3; every other pair agrees. */
static void happy(void)
{
    const uint16_t reports[] = {
        1 << 3 | 1 << 4,
        1 << 2 | 1 << 3 | 1 << 4,
        1 << 1 | 1 << 3 | 1 << 4,
        1 << 0 | 1 << 1 | 1 << 2 | 1 << 4,
        1 << 0 | 1 << 1 | 1 << 2 | 1 << 3,
    };
    uint16_t set = doumbaht_happy_set(reports, COUNT(reports));
    printf("happy");
    for (int lamp = 1; lamp <= DOUMBAHT_N_MOST; lamp++) {
        if (DOUMBAHT_HAS(set, lamp)) {
            printf(" %d", lamp);
        }
    }
    printf("\n");
}

static int text(const char *path)
{
    /* One byte more than the longest record: what is longer is refused, and not cut to a record. */
    static uint8_t bytes[DOUMBAHT_WIDE_RECORD_MOST + 1];
    uint8_t out[DOUMBAHT_TEXT];
    FILE *file = fopen(path, "rb");
    if (file == NULL) {
        perror(path);
        return 1;
    }
    size_t count = fread(bytes, 1, sizeof bytes, file);
    fclose(file);
    fwrite(out, 1, doumbaht_text(bytes, count, out, sizeof out), stdout);
    return 0;
}

int main(int argc, char **argv)
{
    const uint16_t one_wrong[N] = {10, 13, 999, 19, 22};
    const uint16_t two_wrong[N] = {10, 13, 999, 998, 22};
    const uint16_t two_unsent[N] = {10, 13, DOUMBAHT_NOT_SENT, DOUMBAHT_NOT_SENT, 22};
    const uint16_t one_wrong_one_unsent[N] = {10, 13, DOUMBAHT_NOT_SENT, 999, 22};
    const uint16_t three_unsent[N] = {10, 13, DOUMBAHT_NOT_SENT, DOUMBAHT_NOT_SENT, DOUMBAHT_NOT_SENT};
    if (argc != 2) {
        fprintf(stderr, "usage: %s RECORD\n", argv[0]);
        return 2;
    }
    deal();
    open_shares(one_wrong, N);
    open_shares(two_wrong, N);
    open_shares(two_unsent, N);
    open_shares(one_wrong_one_unsent, N);
    open_shares(three_unsent, N);
    repair();
    happy();
    int status = text(argv[1]);
    if (fflush(stdout) != 0 || ferror(stdout)) {
        perror("standard output");
        return 1;
    }
    return status;
}
