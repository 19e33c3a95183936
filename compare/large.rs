//! Segments that end around 2^32 and 2^64, where a section's stored offset is only the low half of
//! the true one.

use crate::library::kind;
use crate::random::{Random, EDGES};

const HIGH: u64 = 1 << 32;

pub struct Layout {
    pub fileoff: u64,
    pub filesize: u64,
    pub sections: Vec<Stored>,
}

/// What a section's record says: its type, offset and size.
pub struct Stored {
    pub kind: u64,
    pub offset: u64,
    pub size: u64,
}

pub fn layout(random: &mut Random, wide: bool) -> Layout {
    let (fileoff, filesize) = if wide { wide_segment(random) } else { narrow_segment(random) };
    let end = fileoff.wrapping_add(filesize);
    let mut before = fileoff;
    let mut sections = Vec::new();
    for _ in 0..random.below(7) {
        if random.one_in(5) {
            // Zero-filled: its numbers may be anything and move nothing.
            let kind = random.pick(&[0x01, 0x0c, 0x12]);
            let offset = random.number() & 0xffff_ffff;
            sections.push(Stored { kind, offset, size: random.number() });
            continue;
        }
        let start = start(random, before);
        let mut size = size(random, start, end);
        if !wide {
            size &= 0xffff_ffff;
        }
        let mut offset = start & 0xffff_ffff;
        if random.one_in(12) {
            offset =
                random.pick(&[0, offset ^ 1, offset.wrapping_sub(1), 0xffff_ffff]) & 0xffff_ffff;
        }
        let kind = loop {
            match kind(random) {
                0x01 | 0x0c | 0x12 => continue,
                kind => break kind,
            }
        };
        sections.push(Stored { kind, offset, size });
        before = start.wrapping_add(size);
    }
    Layout { fileoff, filesize, sections }
}

/// A number close to another, or that number.
fn near(random: &mut Random, number: u64) -> u64 {
    number.wrapping_add(random.pick(&[0, 0, 0, 1, 2, 0x10, 0x100, 1u64.wrapping_neg()]))
}

fn wide_segment(random: &mut Random) -> (u64, u64) {
    let end = match random.below(8) {
        0 => HIGH - 2 + random.below(4),
        1 | 2 => near(random, HIGH),
        3 => HIGH + random.below(HIGH),
        4 => {
            let turns = 2 + random.below(3);
            near(random, turns * HIGH)
        }
        5 => near(random, u64::MAX - 0x100),
        6 => random.pick(&EDGES),
        _ => random.next() >> random.below(32),
    };
    let fileoff = match random.below(8) {
        0 | 1 => 0,
        2 => random.below(0x1000),
        3 => end.wrapping_sub(random.below(0x200)),
        4 => random.below(end.max(1)),
        5 => near(random, HIGH - 0x100),
        // Above the end, so that the sum goes past 2^64.
        6 => end.wrapping_add(1 + random.below(0x1000)),
        _ => random.pick(&EDGES),
    };
    (fileoff, end.wrapping_sub(fileoff))
}

fn narrow_segment(random: &mut Random) -> (u64, u64) {
    let fileoff = match random.below(4) {
        0 => 0xffff_ffff,
        1 => 0xffff_ff00 + random.below(0x100),
        2 => 0x8000_0000,
        _ => random.below(HIGH),
    };
    let end = match random.below(4) {
        0 => HIGH - 2 + random.below(4),
        1 => near(random, HIGH),
        2 => HIGH + random.below(0x1000),
        _ => HIGH + random.below(HIGH),
    };
    (fileoff, end.saturating_sub(fileoff).min(0xffff_ffff))
}

/// Where a section starts: mostly right where the one before it ends.
fn start(random: &mut Random, before: u64) -> u64 {
    match random.below(16) {
        0 => before.wrapping_add(random.below(0x100)),
        1 => {
            let next = (before | 0xffff_ffff).wrapping_add(1);
            near(random, next).max(before)
        }
        2 => before.wrapping_add(random.below(HIGH)),
        _ => before,
    }
}

/// How long it is: mostly within the segment, and often just to an edge.
fn size(random: &mut Random, start: u64, end: u64) -> u64 {
    let room = end.wrapping_sub(start);
    let to_next = HIGH - (start & 0xffff_ffff);
    match random.below(32) {
        0..=6 => 0,
        7..=13 => random.below(0x100).min(room),
        14..=17 => random.below(room.max(1)),
        18..=20 => room,
        21 | 22 => room.wrapping_sub(1),
        23 => room.wrapping_add(1),
        24..=27 => to_next.min(room),
        28 => near(random, to_next),
        29 => HIGH,
        // The end at 2^64, which is 0, or just below.
        30 => start.wrapping_neg().wrapping_sub(random.below(2)),
        _ => random.pick(&EDGES),
    }
}
