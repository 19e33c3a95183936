//! A sample of inputs with the answers that the reader has to give, small enough to be kept: few
//! inputs that reach every answer and every named difference.

use crate::expected::Named;
use crate::tally::Tally;
use std::fs::{self, File};
use std::io::{self, Write};
use std::path::Path;

/// How often each answer is to be reached.
const ENOUGH: u64 = 3;
/// How many inputs are taken whatever they reach.
const FIRST: u64 = 250;

pub struct Sample {
    inputs: File,
    answers: File,
    tally: Tally,
    named: [u64; Named::ALL.len()],
    pub count: u64,
}

impl Sample {
    /// An empty sample: `inputs` and `answers` in a folder, both in frames.
    pub fn new(folder: &Path) -> io::Result<Sample> {
        fs::create_dir_all(folder)?;
        Ok(Sample {
            inputs: File::create(folder.join("inputs"))?,
            answers: File::create(folder.join("answers"))?,
            tally: Tally::new(),
            named: [0; Named::ALL.len()],
            count: 0,
        })
    }

    /// Takes an input if it reaches what was not reached often enough.
    pub fn offer(&mut self, input: &[u8], answer: &str, names: &[Named]) -> io::Result<()> {
        let news = names.iter().any(|name| self.named[*name as usize] < ENOUGH);
        if self.count >= FIRST && !news && !self.tally.gains(answer, ENOUGH) {
            return Ok(());
        }
        for name in names {
            self.named[*name as usize] += 1;
        }
        self.tally.add(Some(answer));
        self.count += 1;
        put(&mut self.inputs, input)?;
        put(&mut self.answers, answer.as_bytes())
    }
}

fn put(to: &mut File, bytes: &[u8]) -> io::Result<()> {
    to.write_all(&(bytes.len() as u32).to_le_bytes())?;
    to.write_all(bytes)
}
