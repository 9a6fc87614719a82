/*
 * The clearing library: futures of one exchange, one day at a time.
 *
 * Link target/staticlib/libclearing.a, which `scripts/library` builds for
 * x86-64. The library needs no other, not even C's.
 *
 * docs/FORMAT.md has the layout of all bytes that are lent, field by field;
 * docs/RULEBOOK.md leads from each rule to its definition.
 *
 * Memory. All memory is the caller's. A slice passes as a pointer to its first
 * byte and its length in bytes; the pointer is not null, even where the length
 * is 0, and need not be aligned. The library holds no memory of its own, keeps
 * no pointer and no state between calls, and touches nothing beyond the lengths.
 * Nobody may write to lent memory while a call runs, and memory lent for writing
 * overlaps no other lent to the same call. Calls on memory of their own may run
 * at the same time.
 *
 * Beyond that no function asks anything of its caller: any bytes may be lent.
 *
 * Answers. Each function answers 0 or a refusal number, of those below. The
 * first that holds is given: for a record 10, 1, 2, then those of its kind by
 * rising number; for settlement 10, 8, 11, 9. A refusal leaves every byte that
 * was lent as it stood.
 */
#ifndef CLEARING_H
#define CLEARING_H

#include <stddef.h>
#include <stdint.h>

#ifdef __cplusplus
extern "C" {
#endif

/* ---- refusal numbers: each is given exactly when its comment holds */

/* valid, accepted or settled: no refusal */
#define CLEARING_ACCEPTED 0

/* record not 24 bytes; kind outside 1..5; a field out of range, absent from
   the book, or not zero though unused; buyer and seller equal */
#define CLEARING_BAD_RECORD 1

/* a named member has 20,000 accepted records */
#define CLEARING_MANY_RECORDS 2

/* trade: a side with mark 0 has reserve + deposits - withdrawals below its
   minimum */
#define CLEARING_BELOW_MINIMUM 3

/* trade: fewer lots under the mark (1: opening - closed old; 2: new) than
   asked, or the close would leave fewer held than paired */
#define CLEARING_FEW_LOTS 4

/* trade: a held side would pass 100,000 */
#define CLEARING_MANY_LOTS 5

/* withdrawal above the room left */
#define CLEARING_ABOVE_ROOM 6

/* pairing above a side's held lots less those paired */
#define CLEARING_FEW_UNPAIRED 7

/* not exactly one pair of settlement and delivery price for each contract;
   settlement price outside 1..10,000,000; delivery price above 10,000,000, or
   0 where lots are paired */
#define CLEARING_BAD_PRICES 8

/* a member's reserve tonight outside -10^15..10^15 */
#define CLEARING_RESERVE_BEYOND 9

/* book not valid */
#define CLEARING_BAD_BOOK 10

/* lent room for the next book or the results too short */
#define CLEARING_SHORT_ROOM 11

/* ---- sizes, in bytes */

/* The most members and the most contracts of a book; the fewest are 1. */
#define CLEARING_MOST_MEMBERS 32
#define CLEARING_MOST_CONTRACTS 32

/* The head of a book with its table of contents. */
#define CLEARING_HEAD 32

/* A row of each section: a contract; a member; a member in a contract. */
#define CLEARING_CONTRACT_ROW 24
#define CLEARING_MEMBER_ROW 64
#define CLEARING_POSITION_ROW 48

/* A book of so many members and contracts. */
#define CLEARING_BOOK_LENGTH(members, contracts)                              \
    (CLEARING_HEAD + CLEARING_CONTRACT_ROW * (size_t)(contracts) +            \
     CLEARING_MEMBER_ROW * (size_t)(members) +                                \
     CLEARING_POSITION_ROW * (size_t)(members) * (size_t)(contracts))

/* The longest book there is, 32 members by 32 contracts. */
#define CLEARING_LONGEST_BOOK 52000

/* A day record. */
#define CLEARING_RECORD 24

/* A contract's pair of settlement price and delivery price. */
#define CLEARING_PRICE_PAIR 8

/* A member's row of the results, and each of its nine fields. */
#define CLEARING_RESULT_ROW 72
#define CLEARING_RESULT_FIELD 8

/* ---- kinds of record, its byte 0 */

/* Contract, buyer, seller, both marks, price, lots. */
#define CLEARING_TRADE 1
/* Delivery pairing: contract, buyer, seller, lots. */
#define CLEARING_PAIRING 2
/* Member, amount. */
#define CLEARING_DEPOSIT 3
/* Member, amount. */
#define CLEARING_WITHDRAWAL 4
/* Securities now: member, market value, discount rate; replaces both. */
#define CLEARING_SECURITIES 5

/* ---- marks of a trade, its bytes 4 (buyer) and 5 (seller) */

/* The side opens. */
#define CLEARING_OPENS 0
/* It closes lots of earlier days. */
#define CLEARING_CLOSES_OLD 1
/* It closes lots opened today. */
#define CLEARING_CLOSES_NEW 2

/* ---- kinds of member, the first number of its row in a book */

#define CLEARING_BROKER 1
#define CLEARING_OTHER 2

/* ---- standings, the last field of a member's row of the results */

/* The reserve is at or above the minimum. */
#define CLEARING_MAY_OPEN 0
/* From 0 up to the minimum: no opening. */
#define CLEARING_NO_OPENING 1
/* Below 0: liquidation. */
#define CLEARING_LIQUIDATION 2

/* ---- the functions */

/*
 * Says whether the bytes are a valid book: 0 if they are, 10 for any others.
 * The book is read only.
 */
uint8_t clearing_check(const uint8_t *book, size_t book_len);

/*
 * Posts a record to the accounts it names: 0, or 10, 1..7. Only the book is
 * written, and only with 0.
 */
uint8_t clearing_post(uint8_t *book, size_t book_len,
                      const uint8_t *record, size_t record_len);

/*
 * Settles a book at one pair of prices a contract (settlement, delivery; four
 * bytes each): 0, or 10, 8, 11, 9. With 0, next begins with the next day's book
 * (as long as this one) and results with 72 bytes a member; bytes beyond keep
 * their values. Book and prices are read only.
 */
uint8_t clearing_settle(const uint8_t *book, size_t book_len,
                        const uint8_t *prices, size_t prices_len,
                        uint8_t *next, size_t next_len,
                        uint8_t *results, size_t results_len);

#ifdef __cplusplus
}
#endif

#endif
