//! Plays the shipped sample scripts, and compares what they print with what they should print.

use std::fs;
use std::io::Write;
use std::path::{Path, PathBuf};
use std::process::{Command, Stdio};
use std::thread;

fn crates() -> PathBuf {
    Path::new(env!("CARGO_MANIFEST_DIR")).join("../../crates")
}

fn play(script: Vec<u8>, folder: &Path) -> Vec<u8> {
    let mut child = Command::new(env!("CARGO_BIN_EXE_play"))
        .current_dir(folder)
        .stdin(Stdio::piped())
        .stdout(Stdio::piped())
        .spawn()
        .unwrap();
    let mut input = child.stdin.take().unwrap();
    let writer = thread::spawn(move || input.write_all(&script).unwrap());
    let output = child.wait_with_output().unwrap();
    writer.join().unwrap();
    assert!(output.status.success());
    output.stdout
}

fn assert_prints(name: &str, script: &Path, folder: &Path, expected: &Path) {
    let printed = play(fs::read(script).unwrap(), folder);
    let expected = fs::read(expected).unwrap();
    assert!(
        printed == expected,
        "{name} prints\n{}\nnot\n{}",
        String::from_utf8_lossy(&printed),
        String::from_utf8_lossy(&expected)
    );
}

#[test]
fn sample_scripts() {
    let folder = crates().join("script_samples/data");
    let mut played = 0;
    for entry in fs::read_dir(&folder).unwrap() {
        let script = entry.unwrap().path();
        if script.extension().is_some_and(|it| it == "script") {
            let name = script.file_name().unwrap().to_string_lossy();
            assert_prints(&name, &script, &folder, &script.with_extension("expected"));
            played += 1;
        }
    }
    assert_eq!(played, 42);
}

#[test]
fn sample_day() {
    let day = crates().join("marginday");
    assert_prints("the sample day", &day.join("stdin"), &day.join("data"), &day.join("stdout"));
}

/// The example of docs/SCRIPT.md.
#[test]
fn example() {
    let script = "\
# one client pays fixed on Rs 1 crore for a year
open 2 300               # January 2025
lodge-cash 1 6000000     # Rs 60,000
trade 1 7 0 0 312 100 0
draw-cash 1 1500000      # too much
price 3 9850 4 1
lodge-security 1 3 1
step-up 10
trade 1 7 0 0 312 1      # the rate is missing
month 313                # the trade has matured
report
";
    let expected = "\
2 open 0
3 lodge-cash 0 0 6000000 0 0
4 trade 0 5000000 6000000 0 0
5 draw-cash 16 5000000 6000000 0 0
6 price 0 0 300 0 0
7 lodge-security 0 5000000 6945600 0 0
8 step-up 0 0 300 0 0
9 error missing number
10 month 0 0 313 0 0
11 report 2 0 313 0 0
account          obligation           available           shortfall  restriction trades
      0                   0                   0                   0  none             0
      1                   0             6945600                   0  none             0
";
    let printed = play(script.into(), Path::new("."));
    assert_eq!(String::from_utf8_lossy(&printed), expected);
}
