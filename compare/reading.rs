//! As much of the format as it takes to see where a named difference is due: whether an input is
//! refused, and its symbols. It is held against the yardstick's text on every input.

use crate::draft::number;

pub struct Symbol {
    pub strx: u64,
    pub kind: u8,
    pub sect: u8,
    pub value: u64,
}

impl Symbol {
    pub fn is_stab(&self) -> bool {
        self.kind & 0xe0 != 0
    }

    /// Whether this is an indirect symbol: what stands as its value is the place of another name.
    pub fn is_indirect(&self) -> bool {
        !self.is_stab() && self.kind & 0x0e == 0x0a
    }
}

struct File<'a> {
    bytes: &'a [u8],
    wide: bool,
    big: bool,
}

/// The symbols of an input taken as a file of one width, or the number of its refusal. `lenient`
/// accepts a table of no symbols past the input's end, as the yardstick does.
pub fn symbols(bytes: &[u8], wide: bool, lenient: bool) -> Result<Vec<Symbol>, u32> {
    let size = if wide { 32 } else { 28 };
    let last = if wide { 0xcf } else { 0xce };
    if bytes.len() < size {
        return Err(1);
    }
    let big = match bytes[..4] {
        [0xfe, 0xed, 0xfa, l] if l == last => true,
        [f, 0xfa, 0xed, 0xfe] if f == last => false,
        _ => return Err(2),
    };
    File { bytes, wide, big }.walk(size, lenient)
}

impl<'a> File<'a> {
    /// The number of `size` bytes at a place that is known to be inside.
    fn number(&self, at: usize, size: usize) -> u64 {
        number(&self.bytes[at..at + size], self.big)
    }

    fn u32(&self, at: usize) -> u64 {
        self.number(at, 4)
    }

    fn either<T>(&self, narrow: T, wide: T) -> T {
        if self.wide {
            wide
        } else {
            narrow
        }
    }

    fn word(&self, at: usize) -> u64 {
        self.number(at, self.either(4, 8))
    }

    fn walk(&self, header: usize, lenient: bool) -> Result<Vec<Symbol>, u32> {
        let mut symbols = Vec::new();
        let end = header + self.u32(20) as usize;
        if end > self.bytes.len() {
            return Ok(symbols);
        }
        let mut at = header;
        for _ in 0..self.u32(16) {
            if end - at < 8 {
                break;
            }
            let size = self.u32(at + 4) as usize;
            if size < 8 || size > end - at {
                break;
            }
            match self.u32(at) {
                2 => symbols = self.symtab(at, size, lenient)?,
                number if number == self.either(1, 0x19) => self.segment(at, size)?,
                _ => {}
            }
            at += size;
        }
        Ok(symbols)
    }

    fn segment(&self, at: usize, size: usize) -> Result<(), u32> {
        let (own, each) = self.either((56, 68), (72, 80));
        if size < own {
            return Err(3);
        }
        let count = self.u32(at + self.either(48, 64)) as usize;
        if count * each > size - own {
            return Err(4);
        }
        let fileoff = self.word(at + self.either(32, 40));
        let end = fileoff.wrapping_add(self.word(at + self.either(36, 48)));
        let mut before = fileoff;
        for section in (0..count).map(|k| at + own + k * each) {
            let kind = self.u32(section + self.either(56, 64)) & 0xff;
            if end <= 0xffff_ffff || matches!(kind, 0x01 | 0x0c | 0x12) {
                continue;
            }
            // The least number from the end before on that has these low 32 bits.
            let stored = self.u32(section + self.either(40, 48));
            let ahead = stored.wrapping_sub(before) & 0xffff_ffff;
            let size = self.word(section + self.either(36, 40));
            before = before.wrapping_add(ahead).wrapping_add(size);
            if before > end {
                return Err(5);
            }
        }
        Ok(())
    }

    fn symtab(&self, at: usize, size: usize, lenient: bool) -> Result<Vec<Symbol>, u32> {
        if size < 24 {
            return Err(3);
        }
        let each = self.either(12, 16);
        let start = self.u32(at + 8) as usize;
        let count = self.u32(at + 12) as usize;
        if start + count * each > self.bytes.len() && !(lenient && count == 0) {
            return Err(6);
        }
        let symbol = |at: usize| Symbol {
            strx: self.u32(at),
            kind: self.bytes[at + 4],
            sect: self.bytes[at + 5],
            value: self.word(at + 8),
        };
        Ok((0..count).map(|k| symbol(start + k * each)).collect())
    }
}
