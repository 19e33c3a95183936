//! Holds a reader's answers against those of another program, the yardstick, on many small inputs.
//!
//!     compare YARDSTICK READER [--count N] [--seed S] [--parts LIST] [--keep DIR] [--same]
//!         [--sample DIR] [--ask WORD]
//!
//! Both programs are started with `--frames`, the reader with WORD where it is given (`--all-frames`
//! asks ours for symbols and object maps too): they read (u32 little-endian length, bytes)* and write
//! (u32 little-endian length, text)*, a text for each input, in blocks `== 32`, `== 64`, `== fat32` and
//! `== fat64`. The inputs come from `families.rs`; the same N and S give the same.
//!
//! - `--parts` names the kinds of line to compare, with commas between them. Lines of other kinds
//!   are left out on both sides, but a block that only one side refuses is a difference always.
//! - `--keep` is a folder for the inputs that differ.
//! - `--sample` is a folder for a few of the inputs, which reach every answer and every named
//!   difference, and what the reader has to answer to each, by the yardstick and the names.
//! - The reader is to differ from the yardstick in the few named ways of `expected.rs`, and has to
//!   wherever one of them is due. With `--same` none is.
//!
//! Ends with 0 where all is as it should be, with 1 where an input is not, and with 2 where the
//! comparison could not be made.

mod comparison;
mod draft;
mod expected;
mod families;
mod frames;
mod large;
mod library;
mod parts;
mod random;
mod reading;
mod sample;
mod shrink;
mod symbols;
mod tally;
mod verdict;

use comparison::Comparison;
use parts::Parts;
use std::path::PathBuf;
use std::process::ExitCode;
use std::time::Instant;

const USAGE: &str =
    "compare YARDSTICK READER [--count N] [--seed S] [--parts LIST] [--keep DIR] [--same] [--sample DIR] [--ask WORD]";

pub struct Options {
    yardstick: String,
    reader: String,
    count: u64,
    seed: u64,
    parts: Parts,
    keep: Option<PathBuf>,
    same: bool,
    sample: Option<PathBuf>,
    ask: String,
}

impl Options {
    fn read(mut args: impl Iterator<Item = String>) -> Result<Options, String> {
        let mut programs = Vec::new();
        let mut options = Options {
            yardstick: String::new(),
            reader: String::new(),
            count: 100_000,
            seed: 1,
            parts: Parts::all(),
            keep: None,
            same: false,
            sample: None,
            ask: "--frames".to_string(),
        };
        while let Some(arg) = args.next() {
            let mut value = || args.next().ok_or(format!("{arg} wants a value"));
            let number = |text: String| text.parse::<u64>().map_err(|e| format!("{text}: {e}"));
            match arg.as_str() {
                "--count" => options.count = number(value()?)?,
                "--seed" => options.seed = number(value()?)?,
                "--parts" => options.parts = Parts::read(&value()?)?,
                "--keep" => options.keep = Some(PathBuf::from(value()?)),
                "--same" => options.same = true,
                "--ask" => options.ask = value()?,
                "--sample" => options.sample = Some(PathBuf::from(value()?)),
                _ if arg.starts_with('-') => return Err(format!("{arg} is no option")),
                _ => programs.push(arg),
            }
        }
        match <[String; 2]>::try_from(programs) {
            Ok([yardstick, reader]) => Ok(Options { yardstick, reader, ..options }),
            Err(_) => Err("two programs are wanted".to_string()),
        }
    }
}

fn main() -> ExitCode {
    let options = match Options::read(std::env::args().skip(1)) {
        Ok(options) => options,
        Err(why) => {
            eprintln!("compare: {why}\nusage: {USAGE}");
            return ExitCode::from(2);
        }
    };
    let mut comparison = match Comparison::new(options) {
        Ok(comparison) => comparison,
        Err(why) => {
            eprintln!("compare: {why}");
            return ExitCode::from(2);
        }
    };
    let begin = Instant::now();
    let done = comparison.run().and_then(|()| comparison.print(begin.elapsed().as_secs_f64()));
    match done {
        Ok(()) if comparison.succeeded() => ExitCode::SUCCESS,
        Ok(()) => ExitCode::from(1),
        Err(why) => {
            eprintln!("compare: {why}");
            ExitCode::from(2)
        }
    }
}
