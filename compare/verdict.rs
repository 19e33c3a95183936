//! How the two answers to an input compare.

use crate::expected::{Expected, Named};
use crate::Options;

pub enum Verdict {
    /// The two agree.
    Same,
    /// They differ, and exactly as the names say.
    Explained(Vec<Named>),
    /// They agree where they should differ as the names say.
    NotShown(Vec<Named>),
    Unexplained,
}

/// The two answers to one input; none where a program ended without one.
pub struct Answers {
    pub yardstick: Option<String>,
    pub reader: Option<String>,
}

const SILENT: &str = "(ended without an answer)\n";

impl Answers {
    fn yardstick(&self) -> &str {
        self.yardstick.as_deref().unwrap_or(SILENT)
    }

    pub fn reader(&self) -> &str {
        self.reader.as_deref().unwrap_or(SILENT)
    }

    /// What the reader has to answer.
    pub fn expected(&self, options: &Options, input: &[u8]) -> Expected<'_> {
        match &self.yardstick {
            Some(text) if !options.same => Expected::new(input, text),
            _ => Expected::same(self.yardstick()),
        }
    }

    pub fn verdict(&self, options: &Options, expected: &Expected) -> Verdict {
        if self.yardstick.is_none() || self.reader.is_none() {
            return Verdict::Unexplained;
        }
        let wanted = options.parts.of(&expected.text);
        let given = options.parts.of(self.reader());
        let plain = options.parts.of(self.yardstick());
        // Of a refusal something is compared whatever the parts are.
        let compared = |kind: &str| kind == "refused" || options.parts.compare(kind);
        let changed = |name: &Named| expected.changes.iter().any(|c| c.0 == *name && compared(c.1));
        let names = Named::ALL.into_iter().filter(changed).collect();
        if given == wanted {
            if wanted == plain {
                Verdict::Same
            } else {
                Verdict::Explained(names)
            }
        } else if given == plain {
            Verdict::NotShown(names)
        } else {
            Verdict::Unexplained
        }
    }
}
