//! Writes a stream of slips to standard output.

#![forbid(unsafe_code)]

use second_engine::generate::{Load, load, stream};
use std::env;
use std::io::{self, Write};
use std::process::ExitCode;

const USAGE: &str = "usage: generate_slips SEED
       generate_slips posts|corrections|closings COUNT SEED";

fn main() -> ExitCode {
    let arguments: Vec<String> = env::args().skip(1).collect();
    let Some(bytes) = generate(&arguments) else {
        eprintln!("{USAGE}");
        return ExitCode::from(2);
    };
    match io::stdout().lock().write_all(&bytes) {
        Ok(()) => ExitCode::SUCCESS,
        Err(error) => {
            eprintln!("generate_slips: {error}");
            ExitCode::FAILURE
        }
    }
}

fn generate(arguments: &[String]) -> Option<Vec<u8>> {
    match arguments {
        [seed] => Some(stream(seed.parse().ok()?)),
        [kind, count, seed] => {
            let kind = match kind.as_str() {
                "posts" => Load::Posts,
                "corrections" => Load::Corrections,
                "closings" => Load::Closings,
                _ => return None,
            };
            Some(load(kind, count.parse().ok()?, seed.parse().ok()?))
        }
        _ => None,
    }
}
