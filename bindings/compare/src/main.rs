//! Plays long random lists of calls on the library and on the rules in ordinary Rust, and compares all that they
//! answer and hold after each call.

mod generate;
mod numbers;
mod pair;
mod plants;
mod random;
mod shrink;
mod sides;
mod steps;

use std::env;
use std::process::ExitCode;

use generate::Run;
use pair::Pair;
use random::Source;
use shrink::{difference, shrink};
use steps::Step;

/// Steps of a run, from an opening to the next.
const RUN: u64 = 300;
/// Below so many calls it is no failure that a refusal never came.
const FEW: u64 = 20_000;

struct Options {
    seed: u64,
    calls: u64,
    plant: Option<usize>,
}

fn options() -> Result<Options, String> {
    let mut options = Options { seed: 1, calls: 100_000, plant: None };
    let mut words = env::args().skip(1);
    while let Some(word) = words.next() {
        let mut number = || {
            let value = words.next().ok_or(format!("{word}: a number is missing"))?;
            value.parse::<u64>().map_err(|_| format!("{word}: {value} is not a number"))
        };
        match word.as_str() {
            "--seed" => options.seed = number()?,
            "--calls" => options.calls = number()?,
            "--plant" => options.plant = Some(number()? as usize),
            _ => return Err(format!("unknown option {word}; there are --seed N and --calls N")),
        }
    }
    Ok(options)
}

fn main() -> ExitCode {
    let options = match options() {
        Ok(options) => options,
        Err(message) => {
            eprintln!("{message}");
            return ExitCode::from(2);
        }
    };
    match options.plant {
        Some(plant) => plants::run(plant, options.seed, options.calls),
        None => compare(options.seed, options.calls),
    }
}

/// How often each number came.
struct Counts([u64; 256]);

impl Counts {
    /// Prints the numbers that came; those that should have and did not are answered.
    fn print(&self) -> Vec<usize> {
        println!("{:>6} {:>8}  question", "number", "times");
        for number in (0..=34).chain([255]) {
            let question = domirelash::question(number as u8);
            println!("{number:>6} {:>8}  {question}", self.0[number]);
        }
        (0..=34).chain([255]).filter(|&number| self.0[number] == 0).collect()
    }
}

fn compare(seed: u64, calls: u64) -> ExitCode {
    println!("seed {seed}, {calls} calls");
    let source = &mut Source::new(seed);
    let mut counts = Counts([0; 256]);
    let mut played = 0;
    while played < calls {
        let mut run = Run::new(source);
        let mut pair = Pair::new();
        let mut list: Vec<Step> = Vec::new();
        for _ in 0..RUN {
            let step = run.next(&pair.plain, source);
            list.push(step);
            match pair.play(&list[list.len() - 1]) {
                Ok(number) => counts.0[usize::from(number.unwrap_or(0))] += 1,
                Err(_) => {
                    println!("a difference after {played} calls");
                    fail(list);
                    return ExitCode::FAILURE;
                }
            }
            played += u64::from(matches!(list.last(), Some(Step::Call { .. })));
            if played == calls {
                break;
            }
        }
    }
    let missing = counts.print();
    println!("{played} calls, no difference");
    if missing.is_empty() {
        return ExitCode::SUCCESS;
    }
    println!("these numbers never came: {missing:?}");
    if calls < FEW {
        ExitCode::SUCCESS
    } else {
        ExitCode::FAILURE
    }
}

/// Prints a failing list, made shorter.
fn fail(list: Vec<Step>) {
    let list = shrink(list);
    println!("the shortest list found, of {} steps:", list.len());
    for step in &list {
        println!("    {step}");
    }
    if let Some((_, found)) = difference(&list) {
        println!("after its last step they differ in: {}", found.what);
        println!("    library: {}", found.library);
        println!("    plain:   {}", found.plain);
    }
}
