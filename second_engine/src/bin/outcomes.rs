//! Runs the streams of some seeds and prints how often each outcome occurs.

#![forbid(unsafe_code)]

use second_engine::generate::stream;
use second_engine::run::settle;
use std::collections::{BTreeMap, BTreeSet};
use std::env;
use std::process::ExitCode;

fn main() -> ExitCode {
    let arguments: Vec<u64> = env::args()
        .skip(1)
        .filter_map(|word| word.parse().ok())
        .collect();
    let [first, count] = arguments[..] else {
        eprintln!("usage: outcomes FIRST_SEED COUNT");
        return ExitCode::from(2);
    };

    let mut outcomes: BTreeMap<String, usize> = BTreeMap::new();
    let mut lengths = Vec::new();
    let mut closings = Vec::new();
    let mut differences = BTreeSet::new();
    for seed in first..first + count {
        let lines = String::from_utf8(settle(&stream(seed))).expect("lines are text");
        lengths.push(lines.lines().count());
        let mut closed = 0;
        for line in lines.lines() {
            let words: Vec<&str> = line.split(' ').collect();
            let [_, letter, answer, number, ..] = words[..] else {
                continue;
            };
            let outcome = match (letter, answer, number) {
                ("M" | "C", "ok", "0") => "ok, amount 0".to_string(),
                ("M" | "C", "ok", yen) if yen.starts_with('-') => "ok, amount below 0".to_string(),
                ("M" | "C", "ok", _) => "ok, amount above 0".to_string(),
                (_, "ok", _) => "ok".to_string(),
                _ => format!("no {number:>2}"),
            };
            closed += usize::from(letter == "M" && answer == "ok");
            if letter == "C" && answer == "ok" {
                differences.insert(number.to_string());
            }
            *outcomes.entry(format!("{letter} {outcome}")).or_default() += 1;
        }
        closings.push(closed);
    }

    for (outcome, times) in &outcomes {
        println!("{times:>8}  {outcome}");
    }
    println!("lines of a run: {}", spread(&mut lengths));
    println!("months closed in a run: {}", spread(&mut closings));
    println!("different answers of corrections: {}", differences.len());
    ExitCode::SUCCESS
}

fn spread(numbers: &mut [usize]) -> String {
    numbers.sort_unstable();
    match &*numbers {
        [] => "none".to_string(),
        [least, .., most] => format!("{least} to {most}, median {}", numbers[numbers.len() / 2]),
        [only] => only.to_string(),
    }
}
