//! Libraries: a header, load commands, and the tables of symbols and strings after them.

use crate::draft::Draft;
use crate::large;
use crate::random::Random;
use crate::symbols;

/// What is special about a library.
#[derive(Clone, Copy, Default)]
pub struct Style {
    /// Mostly stabs among the symbols, in every order.
    pub stabs: bool,
    /// Symbols whose n_strx is 0.
    pub zero_names: bool,
    /// A symtab command that wants no symbols, at a place around the end of the file.
    pub empty_table: bool,
    /// Segments that end around 2^32 and 2^64.
    pub large: bool,
}

/// Names of sections: such as a question for a section finds, such as it nearly finds, names of
/// sixteen bytes, and names with something after their zero.
const SECTIONS: [&[u8]; 26] = [
    b"__text",
    b".text",
    b"__debug_info",
    b".debug_info",
    b"__zdebug_info",
    b"__debug_str_offs",
    b"__zdebug_str_off",
    b"__debug_str_off",
    b"__zdebug_str_of",
    b".debug_str_offse",
    b"__debug_",
    b"__zdebug_",
    b".debug_",
    b"__",
    b".",
    b"",
    b"__bss",
    b"__data",
    b"__text\0more",
    b"\0__text",
    b"_text",
    b"__textual",
    b"__zdebug_inf",
    b"__debug_infos",
    b"__bss_bss_bss_bs",
    b"_16_bytes_named_",
];

const SEGMENTS: [&[u8]; 11] = [
    b"__TEXT",
    b"__TEXT",
    b"__DATA",
    b"__DATA",
    b"__DWARF",
    b"__LINKEDIT",
    b"",
    b"__DWARF\0x",
    b"__DWARFS",
    b"__TEXT_EXEC",
    b"_16_bytes_named_",
];

/// The attributes that decide a section's kind, others near to them, and none.
const ATTRIBUTES: [u64; 10] = [
    0,
    0,
    0,
    0x8000_0000,
    0x0000_0400,
    0x8000_0400,
    0x0200_0000,
    0x8200_0400,
    0x0100_0000,
    0x7dff_fb00,
];

enum Command {
    Segment,
    Symtab,
    EmptySymtab,
    Other,
}

/// A library in either width and byte order.
pub fn library(random: &mut Random, style: Style) -> Draft {
    let mut draft = Draft::new(random.coin(), random.coin());
    header(&mut draft, random);
    let start = draft.len();
    let mut addresses = Vec::new();
    let mut symtabs = Vec::new();
    let mut empty = Vec::new();
    let mut places = Vec::new();
    for command in commands(random, style) {
        draft.mark();
        let at = draft.len();
        places.push(at);
        match command {
            Command::Segment => segment(&mut draft, random, style, &mut addresses),
            Command::Symtab => {
                symtabs.push(at);
                symtab(&mut draft);
            }
            Command::EmptySymtab => {
                empty.push(at);
                symtab(&mut draft);
            }
            Command::Other => other(&mut draft, random),
        }
        pad(&mut draft, random);
        let size = draft.len() - at;
        draft.set(at + 4, size as u64, 4);
    }
    draft.mark();
    let size = draft.len() - start;
    let (count, size) = table(random, places.len() as u64, size as u64);
    draft.set(16, count, 4);
    draft.set(20, size, 4);
    for at in symtabs {
        symbols::tables(&mut draft, random, style, at, &addresses);
    }
    let tail = if random.coin() { random.below(9) } else { 0 };
    let tail = random.bytes(tail as usize);
    draft.bytes.extend(tail);
    for at in empty {
        let end = draft.len() as u64;
        let from = random.pick(&[end - 1, end, end, end + 1, end + 1, end + 100, 0xffff_ffff]);
        draft.set(at + 8, from, 4);
        draft.set(at + 16, random.number(), 4);
        draft.set(at + 20, random.number(), 4);
    }
    if style.empty_table && random.one_in(3) {
        // Somewhere before or after the empty table, a command that may well be refused.
        let at = random.pick(&places);
        let number = if random.coin() { 2 } else { draft.either(1, 0x19) };
        draft.set(at, number, 4);
    }
    draft
}

fn header(draft: &mut Draft, random: &mut Random) {
    draft.mark();
    draft.u32(draft.either(0xfeed_face, 0xfeed_facf));
    draft.u32(random.next());
    draft.u32(random.next());
    let filetype = if random.coin() { 1 } else { random.pick(&[0, 2, 3, 6, 6, 8, 0x0100_0000]) };
    draft.u32(filetype);
    draft.count(0);
    draft.count(0);
    draft.u32(random.next());
    if draft.wide {
        draft.u32(random.next());
    }
    draft.mark();
}

/// What the header says of the commands: mostly the truth.
fn table(random: &mut Random, count: u64, size: u64) -> (u64, u64) {
    match random.below(24) {
        0 => (random.pick(&[0, count.saturating_sub(1), count + 1, 0xffff_ffff]), size),
        1 => (count, size.saturating_sub(1 + random.below(30))),
        2 => (count + random.below(2), size + 1 + random.below(30)),
        _ => (count, size),
    }
}

fn commands(random: &mut Random, style: Style) -> Vec<Command> {
    let mut list = Vec::new();
    let segments = if style.large { 1 + random.below(2) } else { random.below(4) };
    let symtabs =
        if style.stabs || style.zero_names { 1 } else { random.pick(&[0, 1, 1, 1, 1, 2]) };
    list.extend((0..segments).map(|_| Command::Segment));
    list.extend((0..symtabs).map(|_| Command::Symtab));
    list.extend((0..random.below(3)).map(|_| Command::Other));
    if style.empty_table {
        list.push(Command::EmptySymtab);
    }
    random.shuffle(&mut list);
    list
}

/// Sometimes a few bytes more, so that the next command stands at an odd place.
fn pad(draft: &mut Draft, random: &mut Random) {
    if random.one_in(5) {
        let more = 1 + random.place(9);
        let more = random.bytes(more);
        draft.bytes.extend(more);
    }
}

fn segment(draft: &mut Draft, random: &mut Random, style: Style, addresses: &mut Vec<u64>) {
    let layout = if style.large { large::layout(random, draft.wide) } else { plain_layout(random) };
    let name = random.pick(&SEGMENTS);
    draft.u32(draft.either(1, 0x19));
    draft.count(0);
    draft.name(name);
    draft.word(random.number());
    draft.word(random.number());
    draft.extent(layout.fileoff);
    draft.extent(layout.filesize);
    draft.u32(random.below(8));
    draft.u32(random.pick(&[0, 1, 2, 3, 4, 5, 7, 0xffff_fffd, 0x0200_0000]));
    draft.count(layout.sections.len() as u64);
    draft.u32(random.pick(&[0, 0, 0, 0x10, 0x12, 0x1000_0000, 0xffff_ffef]));
    for stored in layout.sections {
        draft.mark();
        let title = random.pick(&SECTIONS);
        draft.name(title);
        draft.mark();
        // A section may name another segment than the one it stands in.
        draft.name(if random.one_in(3) { random.pick(&SEGMENTS) } else { name });
        let address = random.number() & draft.either(0xffff_ffff, u64::MAX);
        addresses.push(address);
        draft.word(address);
        draft.extent(stored.size);
        draft.count(stored.offset);
        for _ in 0..3 {
            draft.u32(random.next());
        }
        let attributes = if random.one_in(8) { random.next() } else { random.pick(&ATTRIBUTES) };
        draft.u32((attributes & 0xffff_ff00) | stored.kind);
        for _ in 0..draft.either(2, 3) {
            draft.u32(random.next());
        }
    }
    draft.mark();
}

/// A segment that is too low for anything to matter but the numbers as they are stored.
fn plain_layout(random: &mut Random) -> large::Layout {
    let sections = (0..random.below(7))
        .map(|_| large::Stored {
            kind: kind(random),
            offset: random.number() & 0xffff_ffff,
            size: random.number(),
        })
        .collect();
    large::Layout { fileoff: random.below(0x2000), filesize: random.below(0x2000), sections }
}

/// A section's type: each of the known ones, and others, such as are a known one but for a bit.
pub fn kind(random: &mut Random) -> u64 {
    match random.below(20) {
        0 => random.pick(&[0x17, 0x21, 0x41, 0x52, 0x81, 0x8c, 0x92, 0xff]),
        1 => 0x17 + random.below(0xe9),
        _ => random.below(0x17),
    }
}

/// Its four numbers are set when the tables' places are known.
fn symtab(draft: &mut Draft) {
    draft.u32(2);
    for _ in 0..5 {
        draft.count(0);
    }
    draft.mark();
}

/// A command that says nothing to the reader, the other width's segments among them.
fn other(draft: &mut Draft, random: &mut Random) {
    let number = match random.below(4) {
        0 => draft.either(0x19, 1),
        1 => random.pick(&[0, 3, 0xb, 0x1b, 0x1d, 0x26, 0x0200_0000, 0x0100_0000, 0x1900_0000]),
        2 => 0x8000_0000 | random.below(0x40),
        _ => 0x1a + random.below(0x20),
    };
    draft.u32(number);
    draft.count(0);
    let size = random.pick(&[0, 0, 4, 8, 16, 16, 24, 64, 72]);
    let body = random.bytes(size);
    draft.bytes.extend(body);
}
