//! Which answers were seen, how often, on each side and at each width.

use std::collections::BTreeMap;

/// Every answer there is, in groups: what a line tells, and what it may tell of it.
const GROUPS: [(&str, &[&str]); 16] = [
    ("endian", &["little", "big"]),
    ("segment", &["without sections", "with sections"]),
    (
        "section kind",
        &[
            "Text",
            "Data",
            "ReadOnlyData",
            "ReadOnlyString",
            "UninitializedData",
            "Tls",
            "UninitializedTls",
            "TlsVariables",
            "Debug",
            "Unknown",
        ],
    ),
    ("section offset", &["up to 0xffffffff", "above 0xffffffff", "above, end past 2^64"]),
    ("found", &QUERIES),
    ("not found", &QUERIES),
    ("symbol", &["none", "some"]),
    ("symbol section", &["undefined", "common", "absolute", "unknown", "section"]),
    ("symbol kind", &["Text", "Data", "Section", "Tls", "Unknown"]),
    ("symbol scope", &["Unknown", "Compilation", "Linkage", "Dynamic"]),
    ("symbol weak", &["0", "1"]),
    ("name", &["some", "empty", "unreadable"]),
    ("file", &["without member", "with member", "with empty member"]),
    ("entry", &["without size", "with size"]),
    ("member", &["some", "empty", "refused 14"]),
    ("refused", &["1", "2", "3", "4", "5", "6", "11", "12"]),
];

/// The names that every text asks for, in hexadecimal: __text, .text, __debug_info, .debug_info,
/// .debug_str_offsets, .debug_, a dot, nothing, __bss.
const QUERIES: [&str; 9] = [
    "5f5f74657874",
    "2e74657874",
    "5f5f64656275675f696e666f",
    "2e64656275675f696e666f",
    "2e64656275675f7374725f6f666673657473",
    "2e64656275675f",
    "2e",
    "",
    "5f5f627373",
];

/// The answers of one program.
pub struct Tally {
    /// For each answer of each group, how often it came at the 32-bit and at the 64-bit width.
    counts: Vec<Vec<[u64; 2]>>,
    /// Lines that are no answer, by their first words, and inputs without an answer.
    odd: BTreeMap<String, u64>,
}

impl Tally {
    pub fn new() -> Tally {
        let counts = GROUPS.iter().map(|group| vec![[0; 2]; group.1.len()]).collect();
        Tally { counts, odd: BTreeMap::new() }
    }

    pub fn add(&mut self, text: Option<&str>) {
        let Some(text) = text else {
            *self.odd.entry("(ended without an answer)".to_string()).or_default() += 1;
            return;
        };
        let mut wide = 0;
        for line in text.lines() {
            match line {
                "== 32" | "== fat32" => wide = 0,
                "== 64" | "== fat64" => wide = 1,
                _ => {
                    if self.line(line, wide).is_none() {
                        let start: String = line.chars().take(40).collect();
                        *self.odd.entry(start).or_default() += 1;
                    }
                }
            }
        }
    }

    /// Whether a text has an answer that was seen less often than `enough` times.
    pub fn gains(&self, text: &str, enough: u64) -> bool {
        let mut more = Tally::new();
        more.add(Some(text));
        let seen = self.counts.iter().flatten().flatten();
        let new = more.counts.iter().flatten().flatten();
        seen.zip(new).any(|(seen, new)| *new > 0 && *seen < enough)
    }

    /// Counts what a line tells; none where it is no line of the format.
    fn line(&mut self, line: &str, wide: usize) -> Option<()> {
        let mut count = |group: &str, answer: &str| {
            let g = GROUPS.iter().position(|known| known.0 == group)?;
            let a = GROUPS[g].1.iter().position(|&known| known == answer)?;
            self.counts[g][a][wide] += 1;
            Some(())
        };
        let either =
            |first: bool, yes: &'static str, no: &'static str| if first { yes } else { no };
        match line.split(' ').collect::<Vec<_>>()[..] {
            ["endian", order] => count("endian", order),
            ["segment", _, sections] => {
                count("segment", either(sections == "0", "without sections", "with sections"))
            }
            ["section", _, kind, _, _, size, offset] => {
                let (size, offset): (u64, u64) = (size.parse().ok()?, offset.parse().ok()?);
                let range = match offset.checked_add(size) {
                    _ if offset <= 0xffff_ffff => "up to 0xffffffff",
                    Some(_) => "above 0xffffffff",
                    None => "above, end past 2^64",
                };
                count("section offset", range)?;
                count("section kind", kind)
            }
            ["find", query, "none"] => count("not found", query),
            ["find", query, _] => count("found", query),
            ["symbol", _, "none"] => count("symbol", "none"),
            ["symbol", _, _, section, kind, scope, weak] => {
                count("symbol", "some")?;
                count("symbol section", section.split(':').next()?)?;
                count("symbol kind", kind)?;
                count("symbol scope", scope)?;
                count("symbol weak", weak)
            }
            ["name", _, "unreadable"] => count("name", "unreadable"),
            ["name", _, _, length] => count("name", either(length == "0", "empty", "some")),
            ["file", _, _, _, "none"] => count("file", "without member"),
            ["file", _, _, _, _, length] => {
                count("file", either(length == "0", "with empty member", "with member"))
            }
            ["entry", _, size, _, _, _] => {
                count("entry", either(size == "0", "without size", "with size"))
            }
            ["member", _, "refused", "14"] => count("member", "refused 14"),
            ["member", _, _, size] => count("member", either(size == "0", "empty", "some")),
            ["refused", number] => count("refused", number),
            _ => None,
        }
    }
}

/// Prints both programs' answers side by side.
pub fn print(yardstick: &Tally, reader: &Tally) {
    println!("answers seen{:36}yardstick{:17}reader", "", "");
    println!("{:40}{:>10}{:>10}   {:>10}{:>10}", "", "32", "64", "32", "64");
    for (g, (group, answers)) in GROUPS.iter().enumerate() {
        for (a, answer) in answers.iter().enumerate() {
            let ([y32, y64], [r32, r64]) = (yardstick.counts[g][a], reader.counts[g][a]);
            let label = format!("  {group} {}", readable(answer));
            let never = match (y32, y64) {
                (0, 0) => "   not reached",
                (0, _) => "   not at 32",
                (_, 0) => "   not at 64",
                _ => "",
            };
            println!("{label:40}{y32:10}{y64:10}   {r32:10}{r64:10}{never}");
        }
    }
    for (side, tally) in [("yardstick", yardstick), ("reader", reader)] {
        for (line, count) in &tally.odd {
            println!("  no answer of the format, from the {side}: {line} ({count})");
        }
    }
}

/// A question's hexadecimal as the name it stands for.
fn readable(answer: &str) -> String {
    if !QUERIES.contains(&answer) {
        return answer.to_string();
    }
    let byte = |at: usize| u8::from_str_radix(&answer[at..at + 2], 16).unwrap_or(b'?');
    let name: Vec<u8> = (0..answer.len()).step_by(2).map(byte).collect();
    format!("`{}`", String::from_utf8_lossy(&name))
}
