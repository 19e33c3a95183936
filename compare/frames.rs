//! The two programs: each is started with a word that asks for frames, gets inputs as (u32
//! little-endian length, bytes)* and answers with texts in the same frames.

use std::io::{self, BufReader, BufWriter, Read, Write};
use std::process::{Child, Command, Stdio};

/// A longer text than this is no answer.
const LONGEST: u32 = 1 << 26;
/// After so many inputs without an answer a program is given up.
const PATIENCE: usize = 20;

pub struct Program {
    path: String,
    word: String,
}

impl Program {
    pub fn new(path: &str, word: &str) -> Program {
        Program { path: path.to_string(), word: word.to_string() }
    }

    /// The program's text for each input, or none where it ended without one; of the first inputs
    /// only where that happens too often.
    pub fn answers(&self, inputs: &[&[u8]]) -> io::Result<Vec<Option<String>>> {
        let mut answers = Vec::with_capacity(inputs.len());
        let mut silent = 0;
        while answers.len() < inputs.len() && silent < PATIENCE {
            answers.extend(self.run(&inputs[answers.len()..])?.into_iter().map(Some));
            // Where the program ended early, it may have died with answers unwritten, so that the
            // next input is asked alone before it is blamed.
            if let Some(&next) = inputs.get(answers.len()) {
                let alone = self.run(&[next])?.pop();
                silent += usize::from(alone.is_none());
                answers.push(alone);
            }
        }
        Ok(answers)
    }

    /// The text for one input.
    pub fn answer(&self, input: &[u8]) -> io::Result<Option<String>> {
        Ok(self.answers(&[input])?.pop().flatten())
    }

    /// Starts the program on the inputs and takes its answers for as long as they come. A thread
    /// writes, since a program that waits to be read from does not read.
    fn run(&self, inputs: &[&[u8]]) -> io::Result<Vec<String>> {
        let mut child = self.start()?;
        let to = child.stdin.take().expect("a pipe");
        let from = BufReader::new(child.stdout.take().expect("a pipe"));
        let texts = std::thread::scope(|scope| {
            // A program that ends early breaks the pipe; its missing answers tell of that.
            scope.spawn(move || drop(write_frames(BufWriter::new(to), inputs)));
            let texts = read_frames(from, inputs.len());
            // All is said, or what was said is no frame: the writer must not wait any longer.
            child.kill().map(|()| texts)
        });
        child.wait()?;
        texts
    }

    fn start(&self) -> io::Result<Child> {
        Command::new(&self.path)
            .arg(&self.word)
            .stdin(Stdio::piped())
            .stdout(Stdio::piped())
            .stderr(Stdio::null())
            .spawn()
            .map_err(|e| io::Error::new(e.kind(), format!("{}: {e}", self.path)))
    }
}

fn write_frames(mut to: impl Write, inputs: &[&[u8]]) -> io::Result<()> {
    for input in inputs {
        to.write_all(&(input.len() as u32).to_le_bytes())?;
        to.write_all(input)?;
    }
    to.flush()
}

fn read_frames(mut from: impl Read, count: usize) -> Vec<String> {
    let mut texts = Vec::new();
    while texts.len() < count {
        match read_frame(&mut from) {
            Ok(text) => texts.push(text),
            Err(_) => break,
        }
    }
    texts
}

fn read_frame(from: &mut impl Read) -> io::Result<String> {
    let mut length = [0; 4];
    from.read_exact(&mut length)?;
    let length = u32::from_le_bytes(length);
    if length > LONGEST {
        return Err(io::ErrorKind::InvalidData.into());
    }
    let mut text = vec![0; length as usize];
    from.read_exact(&mut text)?;
    Ok(String::from_utf8_lossy(&text).into_owned())
}
