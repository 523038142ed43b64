/* The margin engine for callers in C. Link libdomirelash.a (see docs/C_LIBRARY.md). For 64-bit x86 with System V calls.
 *
 * The library holds no memory: the house, its two tables and the numbers of a model lie in the caller's memory, and every call reads
 * them anew. It takes nothing from a heap, starts no thread, keeps no state and calls nothing outside of itself.
 *
 * What a call asks, changes and answers is in docs/CALLS.md; what the figures mean, in docs/RULES.md.
 *
 * Duties of a caller, on every call:
 *  - each pointer is not null, aligned as its type wants, and good for the bytes that its type and length say; only where a length
 *    is 0 is its pointer not read, and may then be null;
 *  - what a call writes (a house or the tables behind pointers without `const`, the place of a check) overlaps nothing else that
 *    the call is given, and nobody else reads or writes it while the call runs; what a call only reads, nobody writes meanwhile;
 *  - the memory is initialised before the first call (zeros will do);
 *  - the numbers of a `struct domirelash_model` passed their check, which answered 0, and are as they were then (see the struct).
 * Any numbers at all may stand in a house, in its tables and in the other arguments: a call answers them, and never goes wrong on them.
 * Padding is not read; what stands in it after a call is not said.
 */
#ifndef DOMIRELASH_H
#define DOMIRELASH_H

#include <stddef.h>
#include <stdint.h>

#ifdef __cplusplus
extern "C" {
#endif

/* Numbers that answer. Number 0 is an accepted call; the first question whose answer is no gives its number.
 *
 *  number  the answer was no to                                                            asked by
 *   0      (accepted)
 *   1      both tables have exactly the right lengths, all within limits, flags 0 or 1?    every call; an opening asks lengths only
 *   2      does the house have this account?                                               account calls
 *   3      benchmark 0 to 3?                                                               new trade
 *   4      side 0 (pay) or 1 (receive)?                                                    new trade
 *   5      notional 1 to 1,000,000?                                                        new trade
 *   6      fixed rate at most 200,000?                                                     new trade
 *   7      maturity between the current month and 120 months later?                        new trade
 *   8      is the trade number free in this account?                                       new trade
 *   9      fewer than 64 trades?                                                           new trade
 *  10      restricted account: would the obligation be lower than the stored one?          new trade
 *  11      unrestricted account: would available reach obligation?                         new trade
 *  12      does the account have a trade of this number?                                   end trade
 *  13      amount 1 to 10^14?                                                              lodge cash, draw cash
 *  14      does the total stay within the limit?                                           lodge cash, lodge security
 *  15      does the account hold what is drawn?                                            draw cash, draw security
 *  16      would available reach obligation after the draw?                                draw cash, draw security
 *  17      security below 32?                                                              lodge security, draw security, price
 *  18      lots 1 to 1,000,000?                                                            lodge security, draw security
 *  19      set below the model's sets?                                                     set
 *  20      price 1 to 30,000, haircut at most 100, listed 0 or 1?                          price
 *  21      step-up at most 100?                                                            step-up
 *  22      family 0 or 1?                                                                  averages, thresholds, volatility
 *  23      both averages 1 to 10^16?                                                       averages
 *  24      triggers and calm marks 1 to 1,000,000, no calm mark above its trigger?         thresholds
 *  25      returns at most 1,000,000?                                                      volatility
 *  26      has the family thresholds?                                                      volatility
 *  27      slot 1 to 4, and above the family's last one that day?                          volatility
 *  28      month later than the current one, at most 1199?                                 month
 *  29      accounts 1 to 32?                                                               opening
 *  30      month at most 1199?                                                             opening
 *  31      sets 1 to 8, scenarios 1 to 1,000?                                              check of a table or knot model
 *  32      are the tables as long as sets and scenarios call for?                          check of a table or knot model
 *  33      is every number in range? (with a place)                                        check of a table or knot model
 *  34      do both models together have at most 1,000 scenarios?                           check of a joined model
 * 255      is this a house at all? (of this library, not of the rules; asked first)        every call but an opening
 *
 * A call that answers a number other than 0 changes nothing: house and both tables stay as they were.
 */
#define DOMIRELASH_ACCEPTED 0
#define DOMIRELASH_WRONG_TABLES 1
#define DOMIRELASH_NOT_A_HOUSE 255

#define DOMIRELASH_MOST_ACCOUNTS 32
#define DOMIRELASH_SECURITIES 32
#define DOMIRELASH_PLACES 64 /* of trades, for each account */

/* A trade, or all zeros for a free place. 16 bytes. Account i has the places 64 * i to 64 * i + 63 of the table of trades. */
struct domirelash_trade {
    uint32_t number;    /*  0 */
    uint8_t benchmark;  /*  4: 0 MIBOR, 1 MIOIS, 2 MIFOR, 3 modified MIFOR */
    uint8_t side;       /*  5: 0 pay, 1 receive */
    uint16_t maturity;  /*  6: a month */
    uint32_t notional;  /*  8: lakh */
    uint32_t rate;      /* 12: 0.0001 per cent */
};

/* The concentration levels of a family, each 0 to 2. 2 bytes. */
struct domirelash_levels {
    uint8_t initial; /* 0: of initial margin */
    uint8_t gross;   /* 1: of gross notional */
};

/* The record of an account. 168 bytes. Account 0 is the house's own. Amounts are in paise. The figures (obligation, available,
 * shortfall, levels, flags) are those of the last settlement; the house's obligation carries the cover, which is the sum of the
 * other records' shortfalls. A flag other than 0 or 1 makes the tables wrong (number 1). */
struct domirelash_account {
    uint64_t cash;                       /*   0 */
    uint64_t obligation;                 /*   8 */
    uint64_t available;                  /*  16 */
    uint64_t shortfall;                  /*  24 */
    uint32_t lots[32];                   /*  32: of each security */
    struct domirelash_levels overnight;  /* 160: MIBOR and MIOIS */
    struct domirelash_levels forward;    /* 162: MIFOR and modified MIFOR */
    uint8_t trades;                      /* 164: how many of its places hold trades */
    uint8_t own;                         /* 165: own flag */
    uint8_t second;                      /* 166: second flag */
};

/* A security. 12 bytes. */
struct domirelash_security {
    uint32_t price;   /* 0: paise per Rs 100 of face */
    uint32_t haircut; /* 4: per cent */
    uint8_t listed;   /* 8: 0 no, 1 yes */
};

/* What is known of a family of benchmarks. 64 bytes. */
struct domirelash_family {
    uint64_t initial;     /*  0: average of initial margin, read where averages are given */
    uint64_t gross;       /*  8: average of gross notional, read where averages are given */
    uint32_t volatility;  /* 16: the per cent in force, in tenths */
    uint32_t triggers[5]; /* 20: millionths, read where thresholds are given */
    uint32_t marks[5];    /* 40: calm marks, millionths, read where thresholds are given */
    uint8_t given;        /* 60: 0 nothing, 1 averages, 2 thresholds, 3 both */
    uint8_t slot;         /* 61: the last slot checked since the last close, 0 for none */
    uint8_t checks;       /* 62: how many were checked */
    uint8_t calm;         /* 63: 1 while every return was below its calm mark, else 0 */
};

/* A house: how many accounts it has, and the market. 528 bytes. `domirelash_open` fills it. It is plain memory: it may be copied,
 * stored and read; every call checks it anew, and answers 255 where a number in it is out of range. */
struct domirelash_house {
    struct domirelash_family overnight;         /*   0: MIBOR and MIOIS */
    struct domirelash_family forward;           /*  64: MIFOR and modified MIFOR */
    uint32_t accounts;                          /* 128: 1 to 32 */
    uint32_t set;                               /* 132: the set of the model in force */
    uint32_t percent;                           /* 136: the step-up */
    uint16_t month;                             /* 140: the current month */
    struct domirelash_security securities[32];  /* 144 */
};

/* The answer of an account call. 32 bytes. */
struct domirelash_answer {
    uint8_t number;       /*  0 */
    uint8_t restriction;  /*  1: 0 none, 1 own flag, 2 second flag, 3 both */
    uint64_t obligation;  /*  8 */
    uint64_t available;   /* 16 */
    uint64_t shortfall;   /* 24 */
};

/* The answer of a market call. 16 bytes. After 255 all but the number are 0. */
struct domirelash_market_answer {
    uint8_t number;     /*  0 */
    uint16_t month;     /*  2 */
    uint32_t set;       /*  4 */
    uint32_t overnight; /*  8: volatility per cent of the family, in tenths */
    uint32_t forward;   /* 12 */
};

/* The numbers of a table or knot model. 64 bytes. Rates and ticks are counted by set, benchmark and residual (table: 484 for each
 * set) or knot (knots: 48 for each set); changes, or shocks, so too and then by scenario. */
#define DOMIRELASH_TABLE 0
#define DOMIRELASH_KNOTS 1
struct domirelash_numbers {
    uint32_t kind;          /*  0: 0 table; any other number: knots */
    uint32_t sets;          /*  4 */
    uint32_t scenarios;     /*  8 */
    const uint32_t *rates;  /* 16 */
    size_t rates_len;       /* 24: how many numbers, here and below */
    const uint32_t *ticks;  /* 32 */
    size_t ticks_len;       /* 40 */
    const int32_t *changes; /* 48: changes of a table, shocks of knots */
    size_t changes_len;     /* 56 */
};

/* A model: `first` alone, or `first` joined with `second`. 136 bytes.
 * The caller vouches that `first` passed its check (domirelash_check_table where its kind is 0, else domirelash_check_knots), and,
 * where `joined` is not 0, `second` too; and that neither the struct nor the numbers behind its pointers have changed since.
 * Where `joined` is 0, `second` is not used; its lengths may be 0. Of a joined model, scenarios past 1,000 are left out:
 * domirelash_check_joined says whether there are any. */
struct domirelash_model {
    uint32_t joined;                   /*  0 */
    struct domirelash_numbers first;   /*  8 */
    struct domirelash_numbers second;  /* 72 */
};

/* The five triggers and five calm marks of a family, in millionths. 40 bytes. */
struct domirelash_marks {
    uint32_t triggers[5]; /*  0 */
    uint32_t calm[5];     /* 20 */
};

/* Five returns, in millionths. 20 bytes. */
struct domirelash_returns {
    uint32_t of[5]; /* 0 */
};

/* Making a model: 0, or 31, 32, 33. With 33 the place of the first number out of range is written, counted from 0 through rates,
 * ticks and changes as one list; else the place stays. `kind` is not read: the function's name says what is checked. */
uint32_t domirelash_check_table(struct domirelash_numbers numbers, size_t *place);
uint32_t domirelash_check_knots(struct domirelash_numbers numbers, size_t *place);
/* 0, or 34: the scenarios of two models. */
uint32_t domirelash_check_joined(uint32_t first, uint32_t second);

/* Opens a house: 0, or 29, 30, 1. Whatever stood in the house and in both tables is replaced; after a refusal all stays.
 * `records_len` is to be `accounts`, and `trades_len` 64 times as many. */
uint8_t domirelash_open(struct domirelash_house *house, uint32_t accounts, uint16_t month,
                        struct domirelash_account *records, size_t records_len,
                        struct domirelash_trade *trades, size_t trades_len);

/* Account calls. They leave the house as it is, and change both tables where they are accepted. After 1, 2 and 255 the answer holds
 * zeros besides its number. */
struct domirelash_answer domirelash_new_trade(const struct domirelash_house *house, struct domirelash_model model,
                                              struct domirelash_account *records, size_t records_len,
                                              struct domirelash_trade *trades, size_t trades_len,
                                              uint32_t account, struct domirelash_trade trade);
struct domirelash_answer domirelash_end_trade(const struct domirelash_house *house, struct domirelash_model model,
                                              struct domirelash_account *records, size_t records_len,
                                              struct domirelash_trade *trades, size_t trades_len,
                                              uint32_t account, uint32_t number);
struct domirelash_answer domirelash_lodge_cash(const struct domirelash_house *house, struct domirelash_model model,
                                               struct domirelash_account *records, size_t records_len,
                                               struct domirelash_trade *trades, size_t trades_len,
                                               uint32_t account, uint64_t amount);
struct domirelash_answer domirelash_draw_cash(const struct domirelash_house *house, struct domirelash_model model,
                                              struct domirelash_account *records, size_t records_len,
                                              struct domirelash_trade *trades, size_t trades_len,
                                              uint32_t account, uint64_t amount);
struct domirelash_answer domirelash_lodge_security(const struct domirelash_house *house, struct domirelash_model model,
                                                   struct domirelash_account *records, size_t records_len,
                                                   struct domirelash_trade *trades, size_t trades_len,
                                                   uint32_t account, uint32_t security, uint32_t lots);
struct domirelash_answer domirelash_draw_security(const struct domirelash_house *house, struct domirelash_model model,
                                                  struct domirelash_account *records, size_t records_len,
                                                  struct domirelash_trade *trades, size_t trades_len,
                                                  uint32_t account, uint32_t security, uint32_t lots);
struct domirelash_answer domirelash_show(const struct domirelash_house *house, struct domirelash_model model,
                                         struct domirelash_account *records, size_t records_len,
                                         struct domirelash_trade *trades, size_t trades_len,
                                         uint32_t account);

/* Market calls. They change the house and both tables where they are accepted. Set, month and per cents are answered as they stand
 * after the call, after any refusal too, but not after 255. */
struct domirelash_market_answer domirelash_set(struct domirelash_house *house, struct domirelash_model model,
                                               struct domirelash_account *records, size_t records_len,
                                               struct domirelash_trade *trades, size_t trades_len,
                                               uint32_t set);
struct domirelash_market_answer domirelash_price(struct domirelash_house *house, struct domirelash_model model,
                                                 struct domirelash_account *records, size_t records_len,
                                                 struct domirelash_trade *trades, size_t trades_len,
                                                 uint32_t security, uint32_t price, uint32_t haircut, uint32_t listed);
struct domirelash_market_answer domirelash_step_up(struct domirelash_house *house, struct domirelash_model model,
                                                   struct domirelash_account *records, size_t records_len,
                                                   struct domirelash_trade *trades, size_t trades_len,
                                                   uint32_t percent);
struct domirelash_market_answer domirelash_averages(struct domirelash_house *house, struct domirelash_model model,
                                                    struct domirelash_account *records, size_t records_len,
                                                    struct domirelash_trade *trades, size_t trades_len,
                                                    uint32_t family, uint64_t initial, uint64_t gross);
struct domirelash_market_answer domirelash_thresholds(struct domirelash_house *house, struct domirelash_model model,
                                                      struct domirelash_account *records, size_t records_len,
                                                      struct domirelash_trade *trades, size_t trades_len,
                                                      uint32_t family, struct domirelash_marks marks);
struct domirelash_market_answer domirelash_volatility(struct domirelash_house *house, struct domirelash_model model,
                                                      struct domirelash_account *records, size_t records_len,
                                                      struct domirelash_trade *trades, size_t trades_len,
                                                      uint32_t family, uint32_t slot, struct domirelash_returns returns);
struct domirelash_market_answer domirelash_close(struct domirelash_house *house, struct domirelash_model model,
                                                 struct domirelash_account *records, size_t records_len,
                                                 struct domirelash_trade *trades, size_t trades_len);
struct domirelash_market_answer domirelash_month(struct domirelash_house *house, struct domirelash_model model,
                                                 struct domirelash_account *records, size_t records_len,
                                                 struct domirelash_trade *trades, size_t trades_len,
                                                 uint16_t month);

/* Reading needs no function: month, set, step-up, per cents and prices stand in the house, and each account's figures in its record. */

#if !defined(__cplusplus) && defined(__STDC_VERSION__) && __STDC_VERSION__ >= 201112L
_Static_assert(sizeof(struct domirelash_trade) == 16 && offsetof(struct domirelash_trade, rate) == 12, "trade");
_Static_assert(sizeof(struct domirelash_account) == 168 && offsetof(struct domirelash_account, second) == 166, "account");
_Static_assert(sizeof(struct domirelash_security) == 12 && offsetof(struct domirelash_security, listed) == 8, "security");
_Static_assert(sizeof(struct domirelash_family) == 64 && offsetof(struct domirelash_family, calm) == 63, "family");
_Static_assert(sizeof(struct domirelash_house) == 528 && offsetof(struct domirelash_house, securities) == 144, "house");
_Static_assert(sizeof(struct domirelash_answer) == 32 && offsetof(struct domirelash_answer, shortfall) == 24, "answer");
_Static_assert(sizeof(struct domirelash_market_answer) == 16 && offsetof(struct domirelash_market_answer, forward) == 12, "market answer");
_Static_assert(sizeof(struct domirelash_numbers) == 64 && offsetof(struct domirelash_numbers, changes_len) == 56, "numbers");
_Static_assert(sizeof(struct domirelash_model) == 136 && offsetof(struct domirelash_model, second) == 72, "model");
_Static_assert(sizeof(struct domirelash_marks) == 40 && sizeof(struct domirelash_returns) == 20, "marks and returns");
#endif

#ifdef __cplusplus
}
#endif

#endif
