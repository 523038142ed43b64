/* A day at a clearing member, through the library: a house with two clients, on a table model joined with a knot model.
 * It prints each answer and a report. tools/expected_c_day.py plays the same day on the Python engine. */
#include <stdio.h>
#include <string.h>

#include "domirelash.h"

enum { ACCOUNTS = 3, SETS = 2, RUNS = 12, STRESS = 4 };

static struct domirelash_house house;
static struct domirelash_account records[ACCOUNTS];
static struct domirelash_trade trades[DOMIRELASH_PLACES * ACCOUNTS];
static struct domirelash_model model;

static const uint32_t knots[12] = {0, 1, 3, 6, 9, 12, 24, 36, 48, 60, 84, 120};
static uint32_t rates[SETS * 4 * 121], ticks[SETS * 4 * 121], knot_rates[SETS * 4 * 12], knot_ticks[SETS * 4 * 12];
static int32_t changes[SETS * 4 * 121 * RUNS], shocks[SETS * 4 * 12 * STRESS];

/* Every call but an opening begins with these. */
#define HELD &house, model, records, ACCOUNTS, trades, DOMIRELASH_PLACES * ACCOUNTS

static void said(const char *what, struct domirelash_answer a) {
    printf("%s %u %llu %llu %llu %u\n", what, a.number, (unsigned long long)a.obligation, (unsigned long long)a.available,
           (unsigned long long)a.shortfall, a.restriction);
}

static void told(const char *what, struct domirelash_market_answer a) {
    printf("%s %u %u %u %u %u\n", what, a.number, a.set, a.month, a.overnight, a.forward);
}

static void report(void) {
    printf("house: month %u, set %u, step-up %u\n", house.month, house.set, house.percent);
    for (int i = 0; i < ACCOUNTS; i++) {
        const struct domirelash_account *r = &records[i];
        printf("account %d: cash %llu, obligation %llu, available %llu, shortfall %llu, trades %u, own %u, second %u\n", i,
               (unsigned long long)r->cash, (unsigned long long)r->obligation, (unsigned long long)r->available,
               (unsigned long long)r->shortfall, r->trades, r->own, r->second);
        for (int j = 0; j < r->trades; j++) printf("  trade %u\n", trades[DOMIRELASH_PLACES * i + j].number);
    }
}

static int make(void) {
    for (int s = 0; s < SETS; s++)
        for (int b = 0; b < 4; b++) {
            for (int r = 0; r < 121; r++) {
                int cell = (s * 4 + b) * 121 + r;
                rates[cell] = 60000 + 500 * b + 10 * r + 100 * s;
                ticks[cell] = 833 * r;
                for (int j = 0; j < RUNS; j++) changes[cell * RUNS + j] = ((j * 37 + b * 11 + s * 5) % 41 - 20) * r * 6;
            }
            for (int k = 0; k < 12; k++) {
                int cell = (s * 4 + b) * 12 + k;
                knot_rates[cell] = 61000 + 400 * b;
                knot_ticks[cell] = 833 * knots[k];
                for (int j = 0; j < STRESS; j++) shocks[cell * STRESS + j] = ((j * 53 + b * 7 + s) % 31 - 15) * 100;
            }
        }
    struct domirelash_numbers table = {DOMIRELASH_TABLE, SETS, RUNS, rates, SETS * 4 * 121, ticks, SETS * 4 * 121, changes, SETS * 4 * 121 * RUNS};
    struct domirelash_numbers knot = {DOMIRELASH_KNOTS, SETS, STRESS, knot_rates, SETS * 4 * 12, knot_ticks, SETS * 4 * 12, shocks, SETS * 4 * 12 * STRESS};
    size_t place = 0;
    ticks[7] = 100001; /* one number out of range: 484 * 2 rates stand before the ticks */
    uint32_t number = domirelash_check_table(table, &place);
    printf("table %u at %zu\n", number, place);
    ticks[7] = 833 * 7;
    uint32_t first = domirelash_check_table(table, &place), second = domirelash_check_knots(knot, &place);
    uint32_t both = domirelash_check_joined(RUNS, STRESS);
    printf("table %u, knots %u, joined %u, too many %u\n", first, second, both, domirelash_check_joined(600, 401));
    model = (struct domirelash_model){1, table, knot};
    return first == 0 && second == 0 && both == 0;
}

static struct domirelash_trade trade(uint32_t number, uint8_t benchmark, uint8_t side, uint16_t maturity, uint32_t notional, uint32_t rate) {
    return (struct domirelash_trade){number, benchmark, side, maturity, notional, rate};
}

int main(void) {
    if (!make()) return 1;
    printf("open %u\n", domirelash_open(&house, 33, 311, records, ACCOUNTS, trades, DOMIRELASH_PLACES * ACCOUNTS));
    printf("open %u\n", domirelash_open(&house, ACCOUNTS, 311, records, ACCOUNTS, trades, DOMIRELASH_PLACES * ACCOUNTS));
    told("price", domirelash_price(HELD, 0, 9850, 4, 1));
    told("averages", domirelash_averages(HELD, 0, 20000000000, 150000));
    struct domirelash_marks marks = {{10000, 10000, 12000, 12000, 15000}, {6000, 6000, 7000, 7000, 9000}};
    told("thresholds", domirelash_thresholds(HELD, 0, marks));
    told("thresholds", domirelash_thresholds(HELD, 2, marks));
    said("lodge cash", domirelash_lodge_cash(HELD, 0, 50000000));
    said("lodge cash", domirelash_lodge_cash(HELD, 1, 900000000));
    said("lodge cash", domirelash_lodge_cash(HELD, 2, 300000000));
    said("lodge security", domirelash_lodge_security(HELD, 1, 0, 400));
    said("trade", domirelash_new_trade(HELD, 1, trade(101, 0, 0, 371, 4000, 63000)));
    said("trade", domirelash_new_trade(HELD, 1, trade(102, 2, 1, 347, 2000, 62000)));
    said("trade", domirelash_new_trade(HELD, 1, trade(103, 1, 0, 323, 500, 60500)));
    said("trade", domirelash_new_trade(HELD, 2, trade(201, 3, 1, 335, 1500, 67300)));
    said("trade", domirelash_new_trade(HELD, 2, trade(202, 1, 0, 431, 90000, 60000)));
    said("trade", domirelash_new_trade(HELD, 0, trade(1, 1, 0, 312, 300, 60500)));
    said("end", domirelash_end_trade(HELD, 1, 103));
    report();
    struct domirelash_returns calm = {{4000, 5200, 3900, 4100, 5000}}, moved = {{18000, 17000, 8000, 7000, 6000}};
    told("volatility", domirelash_volatility(HELD, 0, 1, calm));
    told("volatility", domirelash_volatility(HELD, 0, 2, moved));
    told("volatility", domirelash_volatility(HELD, 0, 2, calm));
    told("set", domirelash_set(HELD, 1));
    told("step-up", domirelash_step_up(HELD, 25));
    said("draw cash", domirelash_draw_cash(HELD, 1, 900000000));
    said("draw cash", domirelash_draw_cash(HELD, 1, 10000000));
    said("draw security", domirelash_draw_security(HELD, 1, 0, 100));
    told("close", domirelash_close(HELD));
    told("month", domirelash_month(HELD, 313));
    said("show", domirelash_show(HELD, 0));
    report();
    /* What no house and no table is, is answered and left. */
    records[2].own = 2;
    said("flag 2", domirelash_show(HELD, 2));
    records[2].own = 0;
    house.month = 1200;
    said("month 1200", domirelash_lodge_cash(HELD, 2, 1));
    told("month 1200", domirelash_close(HELD));
    house.month = 313;
    said("show", domirelash_show(HELD, 2));
    return 0;
}
