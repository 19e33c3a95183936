//! The families of inputs. Input `index` of a run depends on its seed and that number alone.

use crate::draft::Draft;
use crate::library::{library, Style};
use crate::random::{Random, EDGES};

/// The families, and how many of each there are in every round.
pub const FAMILIES: [(&str, u64); 10] = [
    ("libraries", 3),
    ("stabs", 2),
    ("large segments", 3),
    ("name index zero", 1),
    ("empty symbol tables", 1),
    ("cut short", 2),
    ("bits and bytes changed", 3),
    ("numbers at edges", 2),
    ("universal files", 2),
    ("tiny", 1),
];

/// Input `index` of a run, with its family's number.
pub fn input(seed: u64, index: u64) -> (usize, Vec<u8>) {
    let round: u64 = FAMILIES.iter().map(|family| family.1).sum();
    let mut turn = index % round;
    let mut family = 0;
    while turn >= FAMILIES[family].1 {
        turn -= FAMILIES[family].1;
        family += 1;
    }
    let random = &mut Random::new(seed, index);
    let bytes = match family {
        0 => library(random, Style::default()).bytes,
        1 => library(random, Style { stabs: true, ..Style::default() }).bytes,
        2 => library(random, Style { large: true, ..Style::default() }).bytes,
        3 => {
            let stabs = random.coin();
            library(random, Style { zero_names: true, stabs, ..Style::default() }).bytes
        }
        4 => {
            let large = random.coin();
            library(random, Style { empty_table: true, large, ..Style::default() }).bytes
        }
        5 => cut(random),
        6 => changed(random),
        7 => at_edges(random),
        8 => {
            let mut bytes = universal(random).bytes;
            if random.one_in(8) {
                // In the table, or before it.
                bytes.truncate(random.place(140));
            }
            bytes
        }
        _ => tiny(random, index / round),
    };
    (family, bytes)
}

/// A file for the families that spoil one.
fn whole(random: &mut Random) -> Draft {
    match random.below(8) {
        0 => universal(random),
        1 | 2 => library(random, Style { large: true, ..Style::default() }),
        3 | 4 => library(random, Style { stabs: true, ..Style::default() }),
        _ => library(random, Style::default()),
    }
}

/// Cut at the edge of a record or a string, next to one, or anywhere.
fn cut(random: &mut Random) -> Vec<u8> {
    let mut draft = whole(random);
    let bound = random.pick(&draft.bounds);
    let length = match random.below(8) {
        0 | 1 => bound,
        2 | 3 => bound.saturating_sub(1),
        4 => bound + 1,
        5 => bound + random.place(16),
        6 => draft.len().saturating_sub(1 + random.place(20)),
        _ => random.place(draft.len()),
    };
    draft.bytes.truncate(length);
    draft.bytes
}

/// One to four bits or bytes changed, mostly near the front, where the commands are.
fn changed(random: &mut Random) -> Vec<u8> {
    let mut bytes = whole(random).bytes;
    for _ in 0..1 + random.below(4) {
        let front = if random.one_in(4) { bytes.len() } else { bytes.len().min(400) };
        let at = random.place(front);
        match random.below(4) {
            0 | 1 => bytes[at] ^= 1 << random.below(8),
            2 => bytes[at] = random.next() as u8,
            _ => bytes[at] = random.pick(&[0, 1, 0x7f, 0x80, 0xff]),
        }
    }
    bytes
}

/// One to three counts, sizes or offsets at an edge, or one off.
fn at_edges(random: &mut Random) -> Vec<u8> {
    let mut draft = whole(random);
    for _ in 0..1 + random.below(3) {
        if draft.numbers.is_empty() {
            break;
        }
        let (at, size) = random.pick(&draft.numbers);
        let now = draft.get(at, size);
        let value = match random.below(4) {
            0 => now.wrapping_add(1),
            1 => now.wrapping_sub(1),
            2 => draft.len() as u64 - random.below(3),
            _ => random.pick(&EDGES),
        };
        draft.set(at, value, size);
    }
    draft.bytes
}

/// A universal file: its header, the records of 0 to 4 members, and something for them to hold.
fn universal(random: &mut Random) -> Draft {
    let mut draft = Draft::new(random.coin(), true);
    let right = draft.either(0xcafe_babe, 0xcafe_babf);
    let magic = match random.below(16) {
        0 => random.pick(&[0xbeba_feca, 0xbfba_feca, 0xcafe_bab0, 0xfeed_facf]),
        _ => right,
    };
    let count = random.below(5);
    draft.mark();
    draft.u32(magic);
    draft.count(if random.one_in(12) { random.pick(&EDGES) } else { count });
    let mut records = Vec::new();
    for _ in 0..count {
        draft.mark();
        draft.u32(random.pick(&[7, 12, 18, 0x0100_0007, 0x0100_000c, 0xffff_ffff]));
        draft.u32(random.below(4));
        records.push(draft.len());
        draft.extent(0);
        draft.extent(0);
        draft.u32(random.below(20));
        if draft.wide {
            draft.u32(random.next());
        }
    }
    draft.mark();
    let start = draft.len();
    let held = match random.below(3) {
        0 => library(random, Style::default()).bytes,
        1 => {
            let size = random.place(64);
            random.bytes(size)
        }
        _ => Vec::new(),
    };
    draft.bytes.extend(held);
    let word = draft.word_size();
    for at in records {
        let (offset, size) = run(random, start as u64, draft.len() as u64);
        draft.set(at, offset, word);
        draft.set(at + word, size, word);
    }
    draft
}

/// A member's offset and size in a file of `end` bytes: inside, at the end, past it, at an edge.
fn run(random: &mut Random, start: u64, end: u64) -> (u64, u64) {
    let offset = match random.below(8) {
        0..=2 => start,
        3 => end - random.below(2),
        4 => end + 1,
        5 => random.below(end + 1),
        6 => 0,
        _ => random.pick(&EDGES),
    };
    let size = match random.below(8) {
        0 => 0,
        1..=3 => end.saturating_sub(offset),
        4 => end.saturating_sub(offset) + 1,
        5 => end.saturating_sub(offset).saturating_sub(1),
        // The run ends at 2^64, or just past it.
        6 => offset.wrapping_neg().wrapping_add(random.below(2)),
        _ => random.pick(&EDGES),
    };
    (offset, size)
}

/// Every length from 0 to 40 with every magic in front, then with something else in front.
fn tiny(random: &mut Random, turn: u64) -> Vec<u8> {
    const FRONTS: [&[u8]; 9] = [
        b"\xfe\xed\xfa\xce",
        b"\xfe\xed\xfa\xcf",
        b"\xce\xfa\xed\xfe",
        b"\xcf\xfa\xed\xfe",
        b"\xca\xfe\xba\xbe",
        b"\xca\xfe\xba\xbf",
        b"\xbe\xba\xfe\xca",
        b"\xbf\xba\xfe\xca",
        b"",
    ];
    let length = (turn % 41) as usize;
    let mut bytes = FRONTS[(turn / 41) as usize % FRONTS.len()].to_vec();
    let rest = 41;
    bytes.extend(if random.coin() { random.bytes(rest) } else { vec![0; rest] });
    if random.coin() {
        // A small count, that the tables of a universal file may be there.
        bytes[4..8].copy_from_slice(&[0, 0, 0, random.below(3) as u8]);
    }
    bytes.truncate(length);
    bytes
}
