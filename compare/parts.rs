//! The kinds of line that are compared.

use std::borrow::Cow;

const KINDS: [&str; 10] = [
    "endian", "segment", "section", "find", "symbol", "name", "file", "entry", "member", "refused",
];

pub struct Parts(Vec<&'static str>);

impl Parts {
    pub fn all() -> Parts {
        Parts(KINDS.to_vec())
    }

    /// The kinds of a list with commas.
    pub fn read(list: &str) -> Result<Parts, String> {
        let known = |kind: &str| {
            let kind = KINDS.iter().find(|known| **known == kind);
            kind.copied().ok_or(format!("the kinds of line are {}", KINDS.join(",")))
        };
        list.split(',').map(known).collect::<Result<_, _>>().map(Parts)
    }

    pub fn compare(&self, kind: &str) -> bool {
        self.0.contains(&kind)
    }

    /// The lines of a text that are compared. Of a refusal something always stays; so does a line
    /// of no known kind.
    pub fn of<'a>(&self, text: &'a str) -> Cow<'a, str> {
        if KINDS.iter().all(|kind| self.compare(kind)) {
            return text.into();
        }
        let mut kept = String::new();
        for line in text.split_inclusive('\n') {
            let kind = line.split([' ', '\n']).next().unwrap_or_default();
            if self.compare(kind) || !KINDS.contains(&kind) {
                kept.push_str(line);
            } else if kind == "refused" {
                kept.push_str("refused\n");
            }
        }
        kept.into()
    }
}
