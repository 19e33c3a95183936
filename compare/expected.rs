//! What the reader has to say, from the input and what the yardstick says of it: the same text but
//! for the named differences.

use crate::reading::{self, Symbol};
use std::borrow::Cow;
use std::fmt::Write;

/// The ways in which the reader differs by design.
#[derive(Clone, Copy, PartialEq, Eq)]
pub enum Named {
    /// A table or a member of no bytes that starts past the end: accepted there, refused by us.
    ZeroRecords,
    /// An n_strx of 0: the empty name to us; there, what stands at the start of the strings.
    NameIndexZero,
    /// An indirect symbol's value is no address: 0 with us.
    IndirectValue,
}

impl Named {
    pub const ALL: [Named; 3] = [Named::ZeroRecords, Named::NameIndexZero, Named::IndirectValue];

    pub fn words(self) -> &'static str {
        match self {
            Named::ZeroRecords => "zero records past the end",
            Named::NameIndexZero => "name index zero",
            Named::IndirectValue => "indirect symbol's value",
        }
    }
}

pub struct Expected<'a> {
    pub text: Cow<'a, str>,
    /// Each named difference in the text, with the kind of line that it changes.
    pub changes: Vec<(Named, &'static str)>,
    /// Whether the yardstick's text is not what our own reading of the input says it is.
    pub doubtful: bool,
}

impl<'a> Expected<'a> {
    /// The yardstick's text with no difference.
    pub fn same(yardstick: &'a str) -> Expected<'a> {
        Expected { text: yardstick.into(), changes: Vec::new(), doubtful: false }
    }

    pub fn new(input: &[u8], yardstick: &'a str) -> Expected<'a> {
        let mut expected = Expected::same(yardstick);
        let Some(blocks) = blocks(yardstick) else {
            expected.doubtful = true;
            return expected;
        };
        let narrow = expected.thin(input, false, blocks[0]);
        let wide = expected.thin(input, true, blocks[1]);
        let fat32 = expected.fat(input, blocks[2]);
        let fat64 = expected.fat(input, blocks[3]);
        if !expected.changes.is_empty() {
            let text = format!("== 32\n{narrow}== 64\n{wide}== fat32\n{fat32}== fat64\n{fat64}");
            expected.text = text.into();
        }
        expected
    }

    fn fat(&mut self, input: &[u8], block: &'a str) -> Cow<'a, str> {
        // The number of a member that is empty and past the end.
        let past = |line: &'a str| match line.split(' ').collect::<Vec<_>>()[..] {
            ["member", k, offset, "0"] => {
                let offset: u64 = offset.parse().ok()?;
                (offset > input.len() as u64).then_some(k)
            }
            _ => None,
        };
        if block.lines().all(|line| past(line).is_none()) {
            return block.into();
        }
        self.changes.push((Named::ZeroRecords, "member"));
        let mut text = String::new();
        for line in block.lines() {
            let _ = match past(line) {
                Some(k) => writeln!(text, "member {k} refused 14"),
                None => writeln!(text, "{line}"),
            };
        }
        text.into()
    }

    fn thin(&mut self, input: &[u8], wide: bool, block: &'a str) -> Cow<'a, str> {
        let theirs = reading::symbols(input, wide, true);
        let refusal = block.strip_prefix("refused ").and_then(|n| n.trim_end().parse().ok());
        if theirs.as_ref().err() != refusal.as_ref() {
            self.doubtful = true;
            return block.into();
        }
        match reading::symbols(input, wide, false) {
            Err(ours) if refusal != Some(ours) => {
                self.changes.push((Named::ZeroRecords, "refused"));
                format!("refused {ours}\n").into()
            }
            Ok(symbols) if symbols.iter().any(|s| s.strx == 0 || s.is_indirect()) => {
                match adjusted(input, &symbols, block) {
                    Some((text, changes)) => {
                        self.changes.extend(changes);
                        text.into()
                    }
                    None => {
                        self.doubtful = true;
                        block.into()
                    }
                }
            }
            _ => block.into(),
        }
    }
}

/// A start and a length.
type Run = (usize, usize);
type Changes = Vec<(Named, &'static str)>;

/// A block with the differences that its symbols make; none where the block is not as it should be.
fn adjusted(input: &[u8], symbols: &[Symbol], block: &str) -> Option<(String, Changes)> {
    let mut changes = Vec::new();
    let mut text = String::new();
    let mut sections = Vec::new();
    let mut names = vec![None; symbols.len()];
    let mut map = Vec::new();
    for line in block.lines() {
        let words: Vec<&str> = line.split(' ').collect();
        let mut line = Cow::from(line);
        match words[..] {
            ["section", _, kind, ..] => sections.push(kind),
            ["symbol", i, mut address, place, mut kind, scope, weak] => {
                let symbol = symbols.get(i.parse::<usize>().ok()?)?;
                if symbol.is_indirect() && address != "0" {
                    changes.push((Named::IndirectValue, "symbol"));
                    address = "0";
                }
                if symbol.strx == 0 && kind == "Section" {
                    changes.push((Named::NameIndexZero, "symbol"));
                    let section = usize::from(symbol.sect).checked_sub(1)?;
                    kind = symbol_kind(sections.get(section)?);
                }
                line = format!("symbol {i} {address} {place} {kind} {scope} {weak}").into();
            }
            ["name", i, ref run @ ..] => {
                let k: usize = i.parse().ok()?;
                if let [start, length] = *run {
                    *names.get_mut(k)? = Some((start.parse().ok()?, length.parse().ok()?));
                }
                if symbols.get(k)?.strx == 0 && *run != ["0", "0"] {
                    changes.push((Named::NameIndexZero, "name"));
                    line = format!("name {i} 0 0").into();
                }
            }
            ["file" | "entry", ..] => {
                map.push(line.into_owned());
                continue;
            }
            _ => {}
        }
        let _ = writeln!(text, "{line}");
    }
    // Our own account of the map must come to the yardstick's lines with the yardstick's names.
    if map_lines(input, symbols, &names) != map {
        return None;
    }
    for (name, _) in names.iter_mut().zip(symbols).filter(|(_, symbol)| symbol.strx == 0) {
        *name = Some((0, 0));
    }
    let ours = map_lines(input, symbols, &names);
    for kind in ["file", "entry"] {
        let of_kind = |line: &&String| line.starts_with(kind);
        if !ours.iter().filter(of_kind).eq(map.iter().filter(of_kind)) {
            changes.push((Named::NameIndexZero, kind));
        }
    }
    for line in ours {
        let _ = writeln!(text, "{line}");
    }
    Some((text, changes))
}

/// The four blocks of a text, without their headings.
fn blocks(text: &str) -> Option<[&str; 4]> {
    let text = text.strip_prefix("== 32\n")?;
    let (narrow, text) = text.split_once("== 64\n")?;
    let (wide, text) = text.split_once("== fat32\n")?;
    let (fat32, fat64) = text.split_once("== fat64\n")?;
    Some([narrow, wide, fat32, fat64])
}

/// The kind of a symbol in a section of the given kind.
fn symbol_kind(section: &str) -> &'static str {
    match section {
        "Text" => "Text",
        "Data" | "ReadOnlyData" | "ReadOnlyString" | "UninitializedData" => "Data",
        "Tls" | "UninitializedTls" | "TlsVariables" => "Tls",
        _ => "Unknown",
    }
}

/// The map's lines, from the stabs in order and the name of each where it can be read.
fn map_lines(input: &[u8], symbols: &[Symbol], names: &[Option<Run>]) -> Vec<String> {
    let mut lines = Vec::new();
    let mut entries = Vec::new();
    let mut files = 0;
    let mut current = None;
    let mut pending = None;
    for (symbol, name) in symbols.iter().zip(names) {
        match (symbol.kind, *name) {
            (0x64, _) => current = None,
            (0x66, Some((start, length))) if length != 0 => {
                let name = input.get(start..start + length).unwrap_or_default();
                lines.push(file_line(files, start, name));
                current = Some(files);
                files += 1;
            }
            (0x66, _) => current = None,
            (0x24, Some((start, length))) if length != 0 => {
                pending = Some((symbol.value, start, length));
            }
            (0x24, Some(_)) => {
                if let (Some((address, start, length)), Some(file)) = (pending.take(), current) {
                    let size = symbol.value;
                    entries.push(format!("entry {address} {size} {start} {length} {file}"));
                }
            }
            (0x26, Some((start, length))) => {
                if let Some(file) = current {
                    entries.push(format!("entry {} 0 {start} {length} {file}", symbol.value));
                }
            }
            _ => {}
        }
    }
    entries.sort();
    lines.extend(entries);
    lines
}

fn file_line(number: usize, start: usize, name: &[u8]) -> String {
    let opening = name.iter().position(|&b| b == b'(');
    match opening {
        Some(path) if name.ends_with(b")") => {
            let member = start + path + 1;
            format!("file {number} {start} {path} {member} {}", name.len() - path - 2)
        }
        _ => format!("file {number} {start} {} none", name.len()),
    }
}
