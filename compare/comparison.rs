//! A run: it asks both programs about input after input and keeps count.

use crate::expected::Named;
use crate::families::{self, FAMILIES};
use crate::frames::Program;
use crate::sample::Sample;
use crate::shrink::shrink;
use crate::tally::{self, Tally};
use crate::verdict::{Answers, Verdict};
use crate::Options;
use std::io;
use std::mem::{discriminant, take};

/// How many inputs a started program gets.
const BATCH: u64 = 4000;
/// How many differing inputs are kept at most.
const KEPT: u64 = 200;

/// An input, with its number in the run and its family's.
struct Input {
    index: u64,
    family: usize,
    bytes: Vec<u8>,
}

pub struct Comparison {
    options: Options,
    yardstick: Program,
    reader: Program,
    yardstick_tally: Tally,
    reader_tally: Tally,
    families: [u64; FAMILIES.len()],
    bytes: usize,
    longest: usize,
    same: u64,
    explained: u64,
    not_shown: u64,
    unexplained: u64,
    /// Inputs of which the yardstick does not say what our own reading says it does.
    doubtful: u64,
    /// By name: inputs that it helps to explain, and inputs where it does not show.
    named: [[u64; 2]; Named::ALL.len()],
    smallest_not_shown: Option<Input>,
    smallest_unexplained: Option<Input>,
    sample: Option<Sample>,
}

impl Comparison {
    pub fn new(options: Options) -> io::Result<Comparison> {
        let sample = options.sample.as_deref().map(Sample::new).transpose()?;
        Ok(Comparison {
            yardstick: Program::new(&options.yardstick, "--frames"),
            reader: Program::new(&options.reader, &options.ask),
            options,
            yardstick_tally: Tally::new(),
            reader_tally: Tally::new(),
            families: [0; FAMILIES.len()],
            bytes: 0,
            longest: 0,
            same: 0,
            explained: 0,
            not_shown: 0,
            unexplained: 0,
            doubtful: 0,
            named: [[0; 2]; Named::ALL.len()],
            smallest_not_shown: None,
            smallest_unexplained: None,
            sample,
        })
    }

    pub fn succeeded(&self) -> bool {
        self.not_shown == 0 && self.unexplained == 0 && self.doubtful == 0
    }

    pub fn run(&mut self) -> io::Result<()> {
        let mut next = 0;
        while next < self.options.count {
            let end = self.options.count.min(next + BATCH);
            let inputs: Vec<Input> = (next..end).map(|index| self.input(index)).collect();
            let bytes: Vec<&[u8]> = inputs.iter().map(|input| &input.bytes[..]).collect();
            let yardstick = self.yardstick.answers(&bytes)?;
            let reader = self.reader.answers(&bytes)?;
            next += yardstick.len().min(reader.len()) as u64;
            let answers = yardstick.into_iter().zip(reader);
            for (input, (yardstick, reader)) in inputs.into_iter().zip(answers) {
                self.judge(input, Answers { yardstick, reader })?;
            }
            if next < end {
                eprintln!("compare: given up, as too many inputs get no answer");
                break;
            }
        }
        Ok(())
    }

    fn input(&self, index: u64) -> Input {
        let (family, bytes) = families::input(self.options.seed, index);
        Input { index, family, bytes }
    }

    fn judge(&mut self, input: Input, answers: Answers) -> io::Result<()> {
        self.families[input.family] += 1;
        self.bytes += input.bytes.len();
        self.longest = self.longest.max(input.bytes.len());
        self.yardstick_tally.add(answers.yardstick.as_deref());
        self.reader_tally.add(answers.reader.as_deref());
        let expected = answers.expected(&self.options, &input.bytes);
        self.doubtful += u64::from(expected.doubtful);
        let verdict = answers.verdict(&self.options, &expected);
        if let Some(sample) = &mut self.sample {
            let names: &[Named] = match &verdict {
                Verdict::Explained(names) => names,
                _ => &[],
            };
            sample.offer(&input.bytes, &expected.text, names)?;
        }
        match verdict {
            Verdict::Same => self.same += 1,
            Verdict::Explained(names) => {
                self.explained += 1;
                for name in names {
                    self.named[name as usize][0] += 1;
                }
            }
            Verdict::NotShown(names) => {
                self.not_shown += 1;
                for name in names {
                    self.named[name as usize][1] += 1;
                }
                note(&mut self.smallest_not_shown, input);
            }
            Verdict::Unexplained => {
                self.unexplained += 1;
                if self.unexplained <= KEPT {
                    let family = FAMILIES[input.family].0.replace(' ', "-");
                    self.keep(&format!("{}-{family}", input.index), &input.bytes)?;
                }
                note(&mut self.smallest_unexplained, input);
            }
        }
        Ok(())
    }

    /// Writes an input to the folder for such, if there is one.
    fn keep(&self, name: &str, bytes: &[u8]) -> io::Result<()> {
        match &self.options.keep {
            None => Ok(()),
            Some(folder) => {
                std::fs::create_dir_all(folder)?;
                std::fs::write(folder.join(name), bytes)
            }
        }
    }

    /// Asks both programs about one input.
    fn ask(&self, input: &[u8]) -> io::Result<Answers> {
        let yardstick = self.yardstick.answer(input)?;
        let reader = self.reader.answer(input)?;
        Ok(Answers { yardstick, reader })
    }

    fn verdict_of(&self, input: &[u8]) -> io::Result<Verdict> {
        let answers = self.ask(input)?;
        Ok(answers.verdict(&self.options, &answers.expected(&self.options, input)))
    }

    pub fn print(&mut self, seconds: f64) -> io::Result<()> {
        let count: u64 = self.families.iter().sum();
        println!("inputs compared: {count} in {seconds:.1} s ({:.0}/s)", count as f64 / seconds);
        println!(
            "  bytes: {} on average, {} at most",
            self.bytes as u64 / count.max(1),
            self.longest
        );
        for (family, count) in FAMILIES.iter().zip(self.families) {
            println!("  {:26}{count:10}", family.0);
        }
        tally::print(&self.yardstick_tally, &self.reader_tally);
        println!("the same: {}", self.same);
        println!("explained by a named difference: {}", self.explained);
        for (name, [shown, _]) in Named::ALL.into_iter().zip(self.named) {
            println!("  {:26}{shown:10}", name.words());
        }
        println!("named difference due, but not shown: {}", self.not_shown);
        for (name, [_, missing]) in Named::ALL.into_iter().zip(self.named) {
            if missing > 0 {
                println!("  {:26}{missing:10}", name.words());
            }
        }
        if let Some(input) = take(&mut self.smallest_not_shown) {
            self.show("not-shown", &input)?;
        }
        if self.doubtful > 0 {
            println!("not what the yardstick was taken to say: {}", self.doubtful);
        }
        println!("unexplained: {}", self.unexplained);
        if let Some(sample) = &self.sample {
            println!("inputs in the sample: {}", sample.count);
        }
        if let Some(input) = take(&mut self.smallest_unexplained) {
            self.show("unexplained", &input)?;
        }
        Ok(())
    }

    /// Prints a differing input, made as small as it will go, and the first lines that differ.
    fn show(&self, what: &str, input: &Input) -> io::Result<()> {
        let kind = discriminant(&self.verdict_of(&input.bytes)?);
        let small = shrink(&input.bytes, |bytes| {
            self.verdict_of(bytes).is_ok_and(|verdict| discriminant(&verdict) == kind)
        });
        self.keep(&format!("smallest-{what}"), &small)?;
        let (index, family) = (input.index, FAMILIES[input.family].0);
        println!("  smallest: input {index} ({family}), {} bytes", input.bytes.len());
        println!("  made smaller, {} bytes:", small.len());
        println!("    {}", small.iter().map(|b| format!("{b:02x}")).collect::<String>());
        let answers = self.ask(&small)?;
        let expected = answers.expected(&self.options, &small);
        let wanted = self.options.parts.of(&expected.text);
        let given = self.options.parts.of(answers.reader());
        let (block, want, got) = first_difference(&wanted, &given);
        println!("  first difference, in block {block}:");
        println!("    wanted, by the yardstick and the names: {want}");
        println!("    reader:                                 {got}");
        Ok(())
    }
}

/// Keeps the smaller of two inputs.
fn note(smallest: &mut Option<Input>, input: Input) {
    if smallest.as_ref().is_none_or(|known| input.bytes.len() < known.bytes.len()) {
        *smallest = Some(input);
    }
}

/// The first lines that differ, and the heading above them.
fn first_difference<'a>(wanted: &'a str, given: &'a str) -> (&'a str, &'a str, &'a str) {
    const END: &str = "(end of text)";
    let mut block = "(none)";
    let (mut wanted, mut given) = (wanted.lines(), given.lines());
    loop {
        match (wanted.next(), given.next()) {
            (Some(want), Some(got)) if want == got => {
                block = want.strip_prefix("== ").unwrap_or(block);
            }
            (want, got) => return (block, want.unwrap_or(END), got.unwrap_or(END)),
        }
    }
}
