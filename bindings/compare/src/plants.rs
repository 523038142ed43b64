//! Errors planted on the plain side, each of which the comparison must find. One is an edit of the text of
//! `bindings/plain`, which is built so in a folder of its own.

use std::env;
use std::fs;
use std::io;
use std::os::unix::fs::symlink;
use std::path::Path;
use std::process::{Command, ExitCode};

/// What is wrong then, the file, the text that stands there once, and what takes its place.
struct Plant(&'static str, &'static str, &'static str, &'static str);

const PLANTS: [Plant; 35] = [
    Plant(
        "the own flag is set at 95 per cent, not above",
        "flags.rs",
        "100 * obligation > 95 * available",
        "100 * obligation >= 95 * available",
    ),
    Plant(
        "the own flag is cleared at 90 per cent, not below",
        "flags.rs",
        "100 * obligation < 90 * available",
        "100 * obligation <= 90 * available",
    ),
    Plant(
        "the second flag is set at 90 per cent, not above",
        "flags.rs",
        "100 * obligation > 90 * available",
        "100 * obligation >= 90 * available",
    ),
    Plant(
        "the second flag is cleared at 70 per cent, not below",
        "flags.rs",
        "100 * obligation < 70 * available",
        "100 * obligation <= 70 * available",
    ),
    Plant(
        "level 2 stays above 13 per cent only",
        "flags.rs",
        "100 * value >= 13 * average",
        "100 * value > 13 * average",
    ),
    Plant(
        "level 1 comes at 8 per cent",
        "flags.rs",
        "100 * value > 8 * average",
        "100 * value >= 8 * average",
    ),
    Plant(
        "level 1 stays above 6 per cent only",
        "flags.rs",
        "100 * value >= 6 * average",
        "100 * value > 6 * average",
    ),
    Plant(
        "marks are rounded towards zero",
        "margin.rs",
        "(trade.signed_notional() * difference * i64::from(tick)).div_euclid(1000)",
        "(trade.signed_notional() * difference * i64::from(tick)) / 1000",
    ),
    Plant("the spread charge is rounded down", "margin.rs", ".div_ceil(10)", " / 10"),
    Plant(
        "the step-up is rounded down",
        "margin.rs",
        "(base * u64::from(per_cent)).div_ceil(100)",
        "(base * u64::from(per_cent)) / 100",
    ),
    Plant("the volatility margin is rounded down", "margin.rs", ".div_ceil(1000)", " / 1000"),
    Plant(
        "the concentration charge is rounded down",
        "margin.rs",
        "(margin * per_cent).div_ceil(100)",
        "(margin * per_cent) / 100",
    ),
    Plant("residual 120 has a bucket of its own", "margin.rs", "(residual / 6).min(19)", "residual / 6"),
    Plant("k is rounded up", "margin.rs", "(losses.len() / 100).max(1)", "losses.len().div_ceil(100)"),
    Plant("residual 36 has the higher minimum", "margin.rs", "0..=36 =>", "0..=35 =>"),
    Plant(
        "the charge follows the level of initial margin alone",
        "margin.rs",
        "levels[0].max(levels[1])",
        "levels[0]",
    ),
    Plant("a benchmark that loses is credited, too", "margin.rs", "95 * marks.max(0)", "95 * marks"),
    Plant(
        "values between knots are rounded towards zero",
        "model.rs",
        "((high - low) * self.past).div_euclid(self.width)",
        "((high - low) * self.past) / self.width",
    ),
    Plant(
        "changes of a knot model are rounded towards zero",
        "model.rs",
        "(shock * tick).div_euclid(1000)",
        "(shock * tick) / 1000",
    ),
    Plant(
        "the place of a tick out of range is counted from the ticks",
        "model.rs",
        ".map(|at| cells + at)",
        ".map(|at| at)",
    ),
    Plant(
        "joined models have the more sets of the two",
        "model.rs",
        "first.sets().min(second",
        "first.sets().max(second",
    ),
    Plant(
        "a second flag in the house's record restricts it",
        "house.rs",
        "(account != 0 && record.second_flag)",
        "record.second_flag",
    ),
    Plant(
        "question 10 lets an equal obligation pass",
        "house.rs",
        "figures.obligation < before.obligation",
        "figures.obligation <= before.obligation",
    ),
    Plant(
        "a trade that matures in the new month goes",
        "house.rs",
        "trade.maturity >= month",
        "trade.maturity > month",
    ),
    Plant(
        "of two trades of one number the last goes",
        "house.rs",
        "standing.iter().position(",
        "standing.iter().rposition(",
    ),
    Plant(
        "a constituent's call leaves the house as it is",
        "house.rs",
        "if account != 0 {\n            self.settle_house",
        "if account > 32 {\n            self.settle_house",
    ),
    Plant("a return at its trigger counts as above", "market.rs", "now > trigger", "now >= trigger"),
    Plant("a return at its calm mark counts as calm", "market.rs", "now < calm", "now <= calm"),
    Plant(
        "a day of four slots is calm after its last slot alone",
        "market.rs",
        "self.day.checks == SLOTS",
        "self.day.last == SLOTS",
    ),
    Plant(
        "a smaller ratio lowers the volatility per cent",
        "market.rs",
        "self.volatility.max(volatility)",
        "volatility",
    ),
    Plant(
        "the house's obligation has the limit of a constituent's",
        "tables.rs",
        "if house { MOST_HOUSE_FIGURE }",
        "if house { MOST_FIGURE }",
    ),
    Plant("a level of 3 is within the limits", "tables.rs", "level <= 2", "level <= 3"),
    Plant(
        "question 4 is asked before question 3",
        "house.rs",
        "ask(trade.benchmark <= 3, Refusal::Benchmark)?;",
        "ask(trade.side <= 1, Refusal::Side)?;\n ask(trade.benchmark <= 3, Refusal::Benchmark)?;",
    ),
    Plant(
        "question 9 is asked before question 8",
        "house.rs",
        "let free = standing",
        "ask(standing.len() < PLACES, Refusal::AccountFull)?;\n let free = standing",
    ),
    Plant(
        "question 26 is asked before question 25",
        "market.rs",
        "ask(returns.iter()",
        "ask(self.thresholds.is_some(), Refusal::NoThresholds)?;\n ask(returns.iter()",
    ),
];

/// Plants error `number` (0: all, one after another), counted from 1, and compares. It is a failure if no difference
/// is found.
pub fn run(number: usize, seed: u64, calls: u64) -> ExitCode {
    let plants = match number {
        0 => 1..=PLANTS.len(),
        _ if number <= PLANTS.len() => number..=number,
        _ => {
            eprintln!("there are errors 1 to {}, and 0 for all", PLANTS.len());
            return ExitCode::from(2);
        }
    };
    let mut missed = Vec::new();
    for number in plants {
        match plant(number, seed, calls) {
            Ok(true) => {}
            Ok(false) => missed.push(number),
            Err(error) => {
                eprintln!("error {number} could not be planted: {error}");
                return ExitCode::from(2);
            }
        }
    }
    if missed.is_empty() {
        println!("every planted error was found");
        ExitCode::SUCCESS
    } else {
        println!("not found: {missed:?}");
        ExitCode::FAILURE
    }
}

/// Whether a planted error was found.
fn plant(number: usize, seed: u64, calls: u64) -> io::Result<bool> {
    let Plant(what, file, from, to) = &PLANTS[number - 1];
    println!("error {number}: {what}");
    let compare = Path::new(env!("CARGO_MANIFEST_DIR"));
    let bindings = compare.parent().ok_or_else(|| io::Error::other("no folder above"))?;
    let folder = compare.join("target/plants");
    if folder.exists() {
        fs::remove_dir_all(folder.join("bindings"))?;
    }
    for name in ["plain", "compare"] {
        let copy = folder.join("bindings").join(name);
        fs::create_dir_all(&copy)?;
        for kept in ["Cargo.toml", "Cargo.lock"] {
            fs::copy(bindings.join(name).join(kept), copy.join(kept))?;
        }
    }
    let copy = folder.join("bindings");
    symlink(bindings.join("rust"), copy.join("rust"))?;
    symlink(bindings.join("compare/src"), copy.join("compare/src"))?;
    copy_folder(&bindings.join("plain/src"), &copy.join("plain/src"))?;

    let edited = copy.join("plain/src").join(file);
    let text = fs::read_to_string(&edited)?;
    if text.matches(from).count() != 1 {
        return Err(io::Error::other(format!("{file} has not `{from}` once")));
    }
    fs::write(&edited, text.replace(from, to))?;

    let library = env::var_os("DOMIRELASH_LIB_DIR").unwrap_or_else(|| bindings.join("out").into());
    let said = Command::new("cargo")
        .args(["run", "--release", "--offline", "--quiet", "--target-dir"])
        .arg(folder.join("target"))
        .arg("--manifest-path")
        .arg(copy.join("compare/Cargo.toml"))
        .args(["--", "--seed", &seed.to_string(), "--calls", &calls.to_string()])
        .env("DOMIRELASH_LIB_DIR", library)
        .output()?;
    let printed = String::from_utf8_lossy(&said.stdout);
    if !printed.contains("no difference") && !printed.contains("a difference after") {
        return Err(io::Error::other(String::from_utf8_lossy(&said.stderr).into_owned()));
    }
    for line in printed.lines().filter(|_| printed.contains("a difference after")) {
        println!("    {line}");
    }
    Ok(printed.contains("a difference after"))
}

fn copy_folder(from: &Path, to: &Path) -> io::Result<()> {
    fs::create_dir_all(to)?;
    for entry in fs::read_dir(from)? {
        let entry = entry?;
        let copy = to.join(entry.file_name());
        if entry.file_type()?.is_dir() {
            copy_folder(&entry.path(), &copy)?;
        } else {
            fs::copy(entry.path(), copy)?;
        }
    }
    Ok(())
}
