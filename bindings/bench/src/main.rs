//! Times the library against the rules in ordinary Rust, and against the fastest Rust we could write, by any means and by
//! the means of the engine alone, in one run on the same inputs. Each round plays the call on all four, in an order that
//! turns, and compares answers and tables.

mod clock;
mod desk;
mod fast;
mod rules;
mod same;

use std::hint::black_box;

use desk::{Desk, Table, Timed, Times, ACCOUNTS, MONTH, SIDES};
use domirelash::Trade;

fn heading(what: &str) {
    println!();
    print!("{what:<40}");
    for side in ["engine us", "plain us", "fast us", "same us"] {
        print!(" {side:>10}");
    }
    for ratio in ["e/plain", "e/fast", "e/same", "e/p 10%", "e/f 10%", "e/s 10%"] {
        print!(" {ratio:>8}");
    }
    println!();
}

fn line(what: &str, times: &Times) {
    let medians: [f64; SIDES] = std::array::from_fn(|side| times.median(side));
    let tenths: [f64; SIDES] = std::array::from_fn(|side| times.tenth(side));
    print!("{what:<40}");
    for time in medians {
        print!(" {time:>10.1}");
    }
    for [engine, others @ ..] in [medians, tenths] {
        for time in others {
            print!(" {:>8.2}", engine / time);
        }
    }
    println!();
}

/// How many multiply-adds of 64-bit sums the machine makes in a microsecond, over so many rows of changes.
fn multiply_adds(changes: &[i32], scenarios: usize, rows: usize) -> f64 {
    let mut sums = vec![0_i64; scenarios];
    let mut best = f64::INFINITY;
    for round in 0..40 {
        let weight = black_box(12_345 + round);
        let start = clock::now();
        let mut made = 0;
        while made < 484 * scenarios {
            for row in changes.chunks_exact(scenarios).take(rows) {
                for (sum, &change) in sums.iter_mut().zip(row) {
                    *sum += weight * i64::from(change);
                }
                made += scenarios;
            }
        }
        best = best.min((clock::now() - start).as_secs_f64() * 1e6 / made as f64);
        black_box(&mut sums);
    }
    1.0 / best
}

fn main() {
    let rounds = std::env::args().nth(1).and_then(|word| word.parse().ok()).unwrap_or(400);
    println!("Microseconds on the processor: medians of {rounds} rounds; the last three columns compare the times below which");
    println!("a tenth of the rounds lie. A house of {ACCOUNTS} accounts, a table model of one set.");

    let table = Table::new(1000);
    let trade =
        Trade { number: 1_000, benchmark: 1, side: 0, maturity: MONTH + 50, notional: 900, rate: 65_000 };
    heading("N 1,000");
    let mut full = Desk::new(&table, 64);
    let price = full.time(Timed::Price, rounds);
    line("(a) price, 31 constituents of 64 trades", &price);
    let groups = full.groups();
    let mut single = Desk::new(&table, 1);
    line("(b) price, 31 constituents of one swap", &single.time(Timed::Price, rounds * 4));
    let mut nearly = Desk::new(&table, 63);
    line("(c) trade at 63 standing trades", &nearly.time(Timed::Trade(trade), rounds * 4));
    line("(d) lodge cash, 64 standing trades", &full.time(Timed::LodgeCash, rounds * 4));
    line("(d) lodge cash, one swap", &single.time(Timed::LodgeCash, rounds * 4));

    heading("price, by trades of each, N 1,000");
    for count in [1, 8, 16, 32, 64] {
        let mut desk = Desk::new(&table, count);
        line(&format!("{count} trades"), &desk.time(Timed::Price, rounds / 2));
    }

    heading("price, 64 trades of each, by scenarios");
    for scenarios in [20, 100, 250, 500, 1000] {
        let table = Table::new(scenarios);
        let mut desk = Desk::new(&table, 64);
        line(&format!("N {scenarios}"), &desk.time(Timed::Price, rounds / 2));
    }

    let (trades, groups) = groups;
    let (plain, least) = (3 * trades * table.scenarios, groups * table.scenarios);
    println!();
    println!(
        "multiply-adds of (a): {plain} if each trade's losses are added to its residual, its bucket and its"
    );
    println!("benchmark ({trades} trades); {least} if each residual's net is multiplied once ({groups} residuals).");
    for (what, rows) in [("of one row, in the nearest cache", 1), ("over the whole table", 484)] {
        let speed = multiply_adds(&table.changes, table.scenarios, rows);
        println!(
            "a plain loop of multiply-adds of 64-bit sums {what}: {speed:.0} in a microsecond; {least} take {:.0} us,",
            least as f64 / speed
        );
        let needs = |time: f64| time * speed / least as f64;
        let [engine, plain, fast, same] = std::array::from_fn(|side| needs(price.median(side)));
        let tenths: [f64; SIDES] = std::array::from_fn(|side| needs(price.tenth(side)));
        println!(
            "    and (a) takes {engine:.2} times that in the engine, {plain:.2} in plain, {fast:.2} in fast, {same:.2} in same"
        );
        println!("    (tenths: {:.2}, {:.2}, {:.2}, {:.2})", tenths[0], tenths[1], tenths[2], tenths[3]);
    }
}
