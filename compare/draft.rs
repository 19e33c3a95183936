//! A file in the making, at one width and in one byte order.

pub struct Draft {
    pub bytes: Vec<u8>,
    pub wide: bool,
    pub big: bool,
    /// Where records, fields of note and strings begin or end: the places to cut at.
    pub bounds: Vec<usize>,
    /// Where counts, sizes and offsets stand, and their widths in bytes: the places for edge values.
    pub numbers: Vec<(usize, usize)>,
}

impl Draft {
    pub fn new(wide: bool, big: bool) -> Draft {
        Draft { bytes: Vec::new(), wide, big, bounds: Vec::new(), numbers: Vec::new() }
    }

    pub fn len(&self) -> usize {
        self.bytes.len()
    }

    /// One of two figures, by width.
    pub fn either<T>(&self, narrow: T, wide: T) -> T {
        if self.wide {
            wide
        } else {
            narrow
        }
    }

    /// How many bytes a word has.
    pub fn word_size(&self) -> usize {
        self.either(4, 8)
    }

    /// The low `size` bytes of a value in the draft's byte order.
    fn encoded(&self, value: u64, size: usize) -> Vec<u8> {
        let mut bytes = value.to_le_bytes()[..size].to_vec();
        if self.big {
            bytes.reverse();
        }
        bytes
    }

    /// The number of `size` bytes at a place.
    pub fn get(&self, at: usize, size: usize) -> u64 {
        number(&self.bytes[at..at + size], self.big)
    }

    pub fn set(&mut self, at: usize, value: u64, size: usize) {
        let bytes = self.encoded(value, size);
        self.bytes[at..at + size].copy_from_slice(&bytes);
    }

    pub fn put(&mut self, value: u64, size: usize) {
        let bytes = self.encoded(value, size);
        self.bytes.extend(bytes);
    }

    pub fn u32(&mut self, value: u64) {
        self.put(value, 4);
    }

    pub fn word(&mut self, value: u64) {
        self.put(value, self.word_size());
    }

    /// A count, a size or an offset of 4 bytes.
    pub fn count(&mut self, value: u64) {
        self.numbers.push((self.len(), 4));
        self.u32(value);
    }

    /// A size or an offset that is a word.
    pub fn extent(&mut self, value: u64) {
        self.numbers.push((self.len(), self.word_size()));
        self.word(value);
    }

    /// A field of sixteen bytes: as many of the name's as fit, then zeros.
    pub fn name(&mut self, name: &[u8]) {
        let mut field = [0; 16];
        let length = name.len().min(16);
        field[..length].copy_from_slice(&name[..length]);
        self.bytes.extend(field);
    }

    /// Notes that something begins or ends here.
    pub fn mark(&mut self) {
        self.bounds.push(self.len());
    }
}

/// The number that bytes make in a byte order.
pub fn number(bytes: &[u8], big: bool) -> u64 {
    let add = |sum: u64, byte: &u8| (sum << 8) | u64::from(*byte);
    if big {
        bytes.iter().fold(0, add)
    } else {
        bytes.iter().rev().fold(0, add)
    }
}
