//! Tables of symbols and of their names.

use crate::draft::Draft;
use crate::library::Style;
use crate::random::Random;

/// Names of functions, of object files with and without members, and such as mark a section's
/// start or nearly do.
const NAMES: [&[u8]; 24] = [
    b"_f",
    b"_main",
    b"ltmp0",
    b"ltmp12",
    b"ltmp",
    b"ltmpx",
    b"ltmp1x",
    b"ltmp1/",
    b"ltmp1:",
    b"Ltmp0",
    b"a.o",
    b"lib.a(x.o)",
    b"lib.a(x.o)",
    b"a(b)",
    b")",
    b"x()",
    b"()",
    b"(x)",
    b"a(b)(c)",
    b"a(b",
    b"a(b)c",
    b"))",
    b"x)(",
    b"",
];

const SO: u64 = 0x64;
const OSO: u64 = 0x66;
const FUN: u64 = 0x24;
const STSYM: u64 = 0x26;

struct Strings {
    bytes: Vec<u8>,
    /// Where names start, and where a zero is, both from 1 on.
    starts: Vec<u64>,
    zeros: Vec<u64>,
    /// Where names that may mark a section's start do.
    marks: Vec<u64>,
}

struct Symbol {
    strx: u64,
    kind: u64,
    sect: u64,
    desc: u64,
    value: u64,
}

/// The two tables of the symtab command at `at`, in either order, and what the command says of them.
pub fn tables(draft: &mut Draft, random: &mut Random, style: Style, at: usize, addresses: &[u64]) {
    let strings = strings(random, style);
    let most = if style.stabs { 25 } else { 13 };
    let list: Vec<Symbol> =
        (0..random.below(most)).map(|_| symbol(random, style, &strings, addresses)).collect();
    let symbols_first = random.coin();
    if !symbols_first {
        put_strings(draft, random, at, &strings);
    }
    gap(draft, random);
    draft.set(at + 8, draft.len() as u64, 4);
    draft.set(at + 12, list.len() as u64, 4);
    for symbol in &list {
        draft.mark();
        draft.u32(symbol.strx);
        draft.put(symbol.kind, 1);
        draft.put(symbol.sect, 1);
        draft.put(symbol.desc, 2);
        draft.word(symbol.value);
    }
    draft.mark();
    if symbols_first {
        put_strings(draft, random, at, &strings);
    }
}

fn gap(draft: &mut Draft, random: &mut Random) {
    if random.one_in(3) {
        let count = random.place(8);
        let bytes = random.bytes(count);
        draft.bytes.extend(bytes);
    }
}

fn put_strings(draft: &mut Draft, random: &mut Random, at: usize, strings: &Strings) {
    gap(draft, random);
    let start = draft.len();
    let size = strings.bytes.len() as u64;
    let stated = match random.below(20) {
        0 => random.below(size + 1),
        1 => size + 1 + random.below(20),
        2 => random.pick(&[0, 1, 0xffff_ffff]),
        _ => size,
    };
    draft.set(at + 16, start as u64, 4);
    draft.set(at + 20, stated, 4);
    draft.bounds.extend(strings.starts.iter().map(|s| start + *s as usize));
    draft.bytes.extend(&strings.bytes);
    draft.mark();
}

fn strings(random: &mut Random, style: Style) -> Strings {
    let mut bytes = if style.zero_names {
        let first: &[u8] =
            random.pick(&[b"\0", b" \0", b"ltmp7\0", b"ltmp7\0", b"a.o\0", b"l.a(m)\0", b""]);
        first.to_vec()
    } else {
        random.pick(&[&b"\0"[..], b" \0", b"\0\0\0\0"]).to_vec()
    };
    let mut starts = Vec::new();
    let mut marks = Vec::new();
    for _ in 0..3 + random.below(7) {
        let name = random.pick(&NAMES);
        let start = bytes.len() as u64;
        starts.push(start);
        if name.starts_with(b"ltmp") {
            marks.push(start);
        }
        bytes.extend(name);
        bytes.push(0);
    }
    if random.one_in(6) {
        bytes.pop();
    }
    let zeros = (1..bytes.len()).filter(|&p| bytes[p] == 0).map(|p| p as u64).collect();
    Strings { bytes, starts, zeros, marks }
}

/// A place for a name: of a string, of an empty one, inside one, or where none can be read. Never 0
/// but in the style that is for this.
fn strx(random: &mut Random, style: Style, strings: &Strings) -> u64 {
    if style.zero_names && random.one_in(3) {
        return 0;
    }
    let size = strings.bytes.len() as u64;
    let strx = match random.below(16) {
        0 => size.saturating_sub(1),
        1 => size + random.below(2),
        2 => random.pick(&[size + 9, 0x7fff_ffff, 0xffff_ffff]),
        3 => random.below(size),
        4..=6 if !strings.zeros.is_empty() => random.pick(&strings.zeros),
        _ => random.pick(&strings.starts),
    };
    strx.max(1)
}

fn symbol(random: &mut Random, style: Style, strings: &Strings, addresses: &[u64]) -> Symbol {
    let sect = match random.below(12) {
        0 => 0,
        1 => addresses.len() as u64 + 1,
        2 => random.below(256),
        _ => 1 + random.below(addresses.len() as u64),
    };
    let here = addresses.get((sect as usize).wrapping_sub(1)).copied().unwrap_or(0);
    let mut symbol = Symbol {
        strx: strx(random, style, strings),
        kind: 0,
        sect,
        desc: random.pick(&[0, 0, 0x40, 0x80, 0xc0, 0x4000, 0x8000, 0xff3f, 0xffff]),
        value: match random.below(6) {
            0 | 1 => 0,
            2 => random.below(256) << random.pick(&[0, 8, 24, 32, 56]),
            3 => here,
            _ => random.number(),
        },
    };
    let stab = if style.stabs { 5 } else { 1 };
    match random.below(6) {
        n if n < stab => {
            symbol.kind = stab_kind(random);
            if symbol.strx != 0 {
                symbol.strx = stab_strx(random, symbol.kind, strings).unwrap_or(symbol.strx);
            }
            if symbol.value == 0 && random.coin() {
                symbol.value = 1 + random.below(0x1000);
            }
        }
        5 => {
            // Such as mark the start of a section, or nearly.
            symbol.kind = random.pick(&[0x0e, 0x0e, 0x0e, 0x0f, 0x1e, 0x1f]);
            symbol.value = if random.one_in(6) { here.wrapping_add(1) } else { here };
            if symbol.strx != 0 && !strings.marks.is_empty() {
                symbol.strx = random.pick(&strings.marks);
            }
        }
        3 | 4 => symbol.kind = random.pick(&[0x00, 0x01, 0x02, 0x03, 0x0a, 0x0b, 0x0e, 0x0f, 0x1f]),
        _ => symbol.kind = random.below(0x20),
    }
    symbol
}

fn stab_kind(random: &mut Random) -> u64 {
    match random.below(15) {
        0 => SO,
        1..=3 => OSO,
        4 => STSYM,
        5 => random.pick(&[0x20, 0x25, 0x27, 0x2e, 0x44, 0x4e, 0x65, 0x67, 0x80, 0x84, 0xe0]),
        6 => 0x20 + random.below(0xe0),
        _ => FUN,
    }
}

/// A name that suits a stab: functions open with a name and close with none.
fn stab_strx(random: &mut Random, kind: u64, strings: &Strings) -> Option<u64> {
    match (kind, random.below(8)) {
        (FUN, 0..=2) if !strings.zeros.is_empty() => Some(random.pick(&strings.zeros)),
        (FUN, 3..=6) | (OSO, 0..=5) => Some(random.pick(&strings.starts)),
        _ => None,
    }
}
