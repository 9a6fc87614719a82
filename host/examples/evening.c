#include <stdio.h>
#include "clearing.h"

/*
 * One evening: reads a day file (docs/FORMAT.md) from standard input, posts its
 * records, settles, and prints the refusals and the sheet.
 */

static uint8_t book[CLEARING_LONGEST_BOOK], next[CLEARING_LONGEST_BOOK];
static uint8_t results[CLEARING_MOST_MEMBERS * CLEARING_RESULT_ROW];

/* A number of so many bytes, little-endian. */
static uint64_t number(const uint8_t *at, size_t bytes)
{
    uint64_t n = 0;
    while (bytes-- > 0)
        n = n << 8 | at[bytes];
    return n;
}

/* The same of eight bytes, signed. */
static long long money(const uint8_t *at)
{
    uint64_t n = number(at, 8);
    return n >> 63 ? -(long long)~n - 1 : (long long)n;
}

static int fetch(uint8_t *to, size_t bytes)
{
    return fread(to, 1, bytes, stdin) == bytes;
}

/* Reads the book; its length, or 0 where it is not there. */
static size_t fetch_book(void)
{
    size_t total;
    if (!fetch(book, CLEARING_HEAD))
        return 0;
    total = (size_t)number(book + 4, 4);
    if (total < CLEARING_HEAD || total > sizeof book)
        return 0;
    return fetch(book + CLEARING_HEAD, total - CLEARING_HEAD) ? total : 0;
}

/* Reads the records and posts them; whether all were there. */
static int post_all(size_t total)
{
    uint8_t count[4], record[CLEARING_RECORD];
    uint64_t place;
    if (!fetch(count, sizeof count))
        return 0;
    for (place = 0; place < number(count, sizeof count); place++) {
        uint8_t refusal;
        if (!fetch(record, sizeof record))
            return 0;
        refusal = clearing_post(book, total, record, sizeof record);
        if (refusal != CLEARING_ACCEPTED)
            printf("refused %llu %u\n", (unsigned long long)place, refusal);
    }
    return 1;
}

static void print_sheet(size_t members)
{
    size_t at;
    puts("member pnl fee margin usable reserve withdrawable call standing");
    for (at = 0; at < members * CLEARING_RESULT_ROW; at += CLEARING_RESULT_FIELD) {
        int last = (at + CLEARING_RESULT_FIELD) % CLEARING_RESULT_ROW == 0;
        printf("%lld%c", money(results + at), last ? '\n' : ' ');
    }
}

int main(void)
{
    /* One byte more than the longest list, so that a longer one is refused. */
    uint8_t prices[CLEARING_MOST_CONTRACTS * CLEARING_PRICE_PAIR + 1];
    size_t priced, total = fetch_book();
    uint8_t refusal;
    if (total == 0 || !post_all(total)) {
        fputs("the day file ends too early\n", stderr);
        return 2;
    }
    priced = fread(prices, 1, sizeof prices, stdin);
    refusal = clearing_settle(book, total, prices, priced, next, total, results, sizeof results);
    if (refusal == CLEARING_ACCEPTED)
        print_sheet((size_t)number(book, 2));
    else
        printf("settlement refused %u\n", refusal);
    return 0;
}
