//! Dex files for the cases: small ones made up, whose tables, strings, class data and code items lie where the record says, and files as
//! they are; and changes to both.

use crate::case::*;
use crate::document;
use crate::inputs::{generous, Rng};

/// A file and its record.
#[derive(Clone)]
pub struct Dex {
    pub file: Vec<u8>,
    pub numbers: [u32; 13],
}

/// A number in as many bytes as it needs.
pub fn leb(out: &mut Vec<u8>, mut x: u64) {
    while x > 0x7f {
        out.push(x as u8 | 0x80);
        x >>= 7;
    }
    out.push(x as u8);
}

/// A number, now and then in more bytes than it needs, up to five, the fifth with bits past the 32nd or a mark that it goes on.
fn some_leb(out: &mut Vec<u8>, x: u64, rng: &mut Rng) {
    let from = out.len();
    leb(out, x);
    if rng.one_in(12) {
        let n = 1 + rng.below(5);
        while out.len() - from < n {
            *out.last_mut().unwrap() |= 0x80;
            out.push(0);
        }
        if out.len() - from == 5 && rng.one_in(2) {
            *out.last_mut().unwrap() = rng.of(&[0x10, 0x70, 0x80, 0xf0]) | (x >> 28) as u8;
        }
    }
}

pub fn put(file: &mut [u8], at: usize, x: u32) {
    file[at..at + 4].copy_from_slice(&x.to_le_bytes());
}

fn get(file: &[u8], at: usize) -> u32 {
    file.get(at..at + 4).map_or(0, |b| u32::from_le_bytes(b.try_into().unwrap()))
}

impl Dex {
    /// The record as the file's own header has it.
    pub fn of_file(file: Vec<u8>) -> Self {
        let mut numbers = [0; 13];
        for i in 0..6 {
            numbers[2 * i] = get(&file, 0x3c + 8 * i);
            numbers[2 * i + 1] = get(&file, 0x38 + 8 * i);
        }
        numbers[12] = get(&file, 0x34);
        Dex { file, numbers }
    }

    pub fn case(&self, op: u32) -> Case {
        let mut case = Case::new(op);
        case.file = self.file.clone();
        if !matches!(op, GROUP | STRING_BYTES | STRING_SEARCH | TYPE_SEARCH | NAME_FILTER | SCAN | LOCATE | LIST_SLOT) {
            case.numbers[..13].copy_from_slice(&self.numbers);
        }
        case
    }

    pub fn string_offset(&self, rng: &mut Rng) -> u32 {
        let i = rng.below(self.numbers[1].min(100_000) as usize);
        get(&self.file, self.numbers[0] as usize + 4 * i)
    }

    /// The text of some string, or nothing.
    pub fn text(&self, rng: &mut Rng) -> Vec<u8> {
        let mut case = Case::new(STRING_BYTES);
        case.numbers[13] = self.string_offset(rng);
        case.file = self.file.clone();
        document::answer(&case).map_or(vec![], |(n, _)| self.file[n[0]..n[0] + n[1]].to_vec())
    }

    /// Keys, start and end, where the file has a string map.
    pub fn string_map(&self) -> Option<(Vec<u64>, u32, u32)> {
        let (n, mut lists) = document::answer(&generous(self.case(STRING_MAP))).ok()?;
        Some((lists.remove(0), n[1] as u32, n[2] as u32))
    }

    pub fn type_groups(&self) -> [Vec<u32>; 2] {
        match document::answer(&generous(self.case(TYPE_GROUPS))) {
            Ok((_, lists)) => [0, 1].map(|i| lists[i].iter().map(|&w| w as u32).collect()),
            Err(_) => Default::default(),
        }
    }

    /// A few bytes, a table or the record changed, or the end cut off.
    pub fn mutate(&mut self, rng: &mut Rng) {
        for _ in 0..1 + rng.below(3) {
            let n = self.file.len();
            match rng.below(12) {
                0 if n > 0 => self.file.truncate(n - rng.below(n.min(24))),
                1 if n > 0 => self.file.truncate(rng.below(n)),
                2 | 3 => {
                    let i = rng.below(13);
                    self.numbers[i] = rng.near(self.numbers[i]);
                }
                4 => self.numbers[12] = if rng.one_in(2) { 0 } else { rng.below(n + 4) as u32 },
                5 if n >= 4 => {
                    // A whole word of a table.
                    let t = rng.below(6);
                    let at = self.numbers[2 * t] as usize + 4 * rng.below(8);
                    if at + 4 <= n {
                        let w = get(&self.file, at);
                        let w = if rng.one_in(2) { rng.near(w) } else { rng.near(n as u32) };
                        put(&mut self.file, at, w);
                    }
                }
                _ if n > 0 => {
                    let at = rng.below(n);
                    self.file[at] = match rng.below(4) {
                        0 => rng.of(&[0x00, 0x01, 0x0f, 0x10, 0x7f, 0x80, 0xff]),
                        1 => self.file[at].wrapping_add(1),
                        2 => self.file[at].wrapping_sub(1),
                        _ => rng.next() as u8,
                    };
                }
                _ => {}
            }
        }
    }
}

/// The header of a payload, by the high byte of its first unit: 1 packed switch, 2 sparse switch, 3 array data, which alone have a width.
pub fn payload_header(high: u8, width: u16, size: u32) -> Vec<u8> {
    let mut out = vec![0, high];
    if high == 3 {
        out.extend(width.to_le_bytes());
        out.extend(size.to_le_bytes());
    } else {
        out.extend((size as u16).to_le_bytes());
    }
    out
}

/// A payload as published ("packed-switch-payload format" and the two after it), its data these bytes again and again.
pub fn payload(high: u8, width: u16, size: u32, data: &[u8]) -> Vec<u8> {
    let mut out = payload_header(high, width, size);
    let n = match high {
        // The first key and the targets; the keys and the targets; the elements, in whole units.
        1 => 4 + 4 * size,
        2 => 8 * size,
        _ => (width as u32 * size).next_multiple_of(2),
    };
    out.extend(data.iter().cycle().take(n as usize));
    out
}

/// A small payload, its data often what could be taken for a use; now and then with a width or size that its data don't have.
pub fn some_payload(rng: &mut Rng) -> Vec<u8> {
    let high = 1 + rng.below(3) as u8;
    let (width, size) = (rng.of(&[0, 1, 1, 2, 3, 4, 8]), rng.below(4) as u32);
    let data = [rng.of(&[0x00, 0x1a, 0x1b, 0x22, 0x52, 0x6e, 0x73]), 0, rng.below(8) as u8, 0];
    let mut out = payload(high, width, size, &data);
    if rng.one_in(6) {
        let at = 2 + rng.below(if high == 3 { 6 } else { 2 });
        out[at] = rng.of(&[0, 1, 2, 3, 5, 0x10, 0x80, 0xff]);
    }
    out
}

/// Some instructions, whole ones, now and then with payloads between them, and now and then bytes after them. An operand may look like the
/// first unit of a payload, and so may a nop's unit, which then is one.
pub fn instructions(rng: &mut Rng) -> Vec<u8> {
    const OPS: [u8; 20] = [
        0x00, 0x0e, 0x12, 0x1a, 0x1a, 0x1b, 0x1c, 0x1f, 0x22, 0x24, 0x52, 0x60, 0x6d, 0x6e, 0x71, 0x78, 0xfa, 0x18, 0x13, 0x28,
    ];
    let mut out = Vec::new();
    let payloads = rng.one_in(4);
    for _ in 0..1 + rng.below(7) {
        if payloads && rng.one_in(3) {
            out.extend(some_payload(rng));
            continue;
        }
        let op = rng.of(&OPS);
        let n = 2 * source::opcode_lengths::units(op) as usize;
        let at = out.len();
        out.resize(at + n, 0);
        out[at] = op;
        if rng.one_in(12) {
            out[at + 1] = rng.below(5) as u8;
        }
        if n > 2 {
            out[at + 2] = rng.below(8) as u8;
            if rng.one_in(12) {
                out[at + 2..at + 4].copy_from_slice(&[0, 1 + rng.below(3) as u8]);
            }
        }
        if n > 4 && rng.one_in(3) {
            out[at + 4] = rng.below(8) as u8;
        }
    }
    if rng.one_in(5) {
        let n = 2 * rng.below(4);
        out.extend(rng.bytes(n, &[0x00, 0x01, 0x03, 0x05, 0x1a]));
    }
    out
}

/// A code item with these instructions, at the file's end. Now and then its array has not all of them, so that some stand after it.
fn code_item(file: &mut Vec<u8>, array: &[u8], rng: &mut Rng) {
    let units = array.len() / 2;
    let size = if rng.one_in(5) { 1 + rng.below(units) } else { units };
    file.extend(rng.bytes(12, &[0, 1]));
    file.extend((size as u32).to_le_bytes());
    file.extend(array);
}

/// A small dex file: tables, string data in any order, code items, some with one code for several methods, class data one after another,
/// a map with or without an entry for them; and now and then a code item after all of it, with which the file may end.
pub fn made_up(rng: &mut Rng) -> Dex {
    let counts = [rng.below(9), rng.below(6), 0, 0, rng.below(9), rng.below(4)];
    let sizes = [4, 4, 12, 8, 8, 32];
    let mut numbers = [0u32; 13];
    let mut file = vec![0u8; 0x70];
    for i in 0..6 {
        numbers[2 * i] = file.len() as u32;
        numbers[2 * i + 1] = counts[i] as u32;
        file.resize(file.len() + counts[i] * sizes[i], 0);
    }
    let (ns, nt, nm, nc) = (counts[0], counts[1], counts[4], counts[5]);
    let table = |i: usize| numbers[2 * i] as usize;
    for i in 0..nt {
        let s = if rng.one_in(10) { rng.near(ns as u32) } else { rng.below(ns) as u32 };
        put(&mut file, table(1) + 4 * i, s);
    }
    for i in 0..nm {
        let at = table(4) + 8 * i;
        let class = if rng.one_in(10) { rng.near(nt as u32) } else { rng.below(nt) as u32 };
        let name = if rng.one_in(10) { rng.near(ns as u32) } else { rng.below(ns) as u32 };
        file[at..at + 2].copy_from_slice(&(class as u16).to_le_bytes());
        put(&mut file, at + 4, name);
    }

    // Code items, four-aligned but for some.
    let mut codes = Vec::new();
    for _ in 0..rng.below(5) {
        while file.len() % 4 != 0 && !rng.one_in(16) {
            file.push(0);
        }
        codes.push(file.len() as u32);
        let array = instructions(rng);
        code_item(&mut file, &array, rng);
    }

    // Class data. The code offsets of the last item are written once it is known where that is, in three bytes each.
    let with_last = rng.one_in(4);
    let mut of_last = Vec::new();
    let first = file.len() as u32;
    for c in 0..nc {
        let at = file.len() as u32;
        put(&mut file, table(5) + 32 * c + 24, if rng.one_in(8) { 0 } else { at });
        let n: [usize; 4] = [rng.below(3), rng.below(2), rng.below(5), rng.below(3)];
        n.iter().for_each(|&x| some_leb(&mut file, x as u64, rng));
        for _ in 0..2 * (n[0] + n[1]) {
            let x = rng.below(300) as u64;
            some_leb(&mut file, x, rng);
            if rng.one_in(40) {
                // More than five bytes.
                let more = 1 + rng.below(6);
                *file.last_mut().unwrap() |= 0x80;
                file.extend(vec![0x80; more]);
                file.push(0);
            }
        }
        for group in [n[2], n[3]] {
            let mut index = 0;
            for _ in 0..group {
                let diff = if rng.one_in(60) { rng.near(nm as u32) as usize } else { rng.below(3).min(nm.saturating_sub(index + 1)) };
                index += diff;
                some_leb(&mut file, diff as u64, rng);
                let flags = rng.of(&[0u64, 1, 9, 0x80, 0x1_0000]);
                some_leb(&mut file, flags, rng);
                if with_last && rng.one_in(3) {
                    of_last.push(file.len());
                    file.extend([0x80, 0x80, 0]);
                    continue;
                }
                let code = match rng.below(20) {
                    0..=2 => 0,
                    3 if rng.one_in(3) => rng.below(file.len() + 20) as u32,
                    _ if codes.is_empty() => 0,
                    _ => rng.of(&codes),
                };
                some_leb(&mut file, code as u64, rng);
            }
        }
    }

    // String data, in any order, some without their final zero or on one offset.
    let mut order: Vec<usize> = (0..ns).collect();
    for i in (1..ns).rev() {
        order.swap(i, rng.below(i + 1));
    }
    for &s in &order {
        let at = file.len() as u32;
        put(&mut file, table(0) + 4 * s, at);
        if rng.one_in(12) {
            continue;
        }
        let n = match rng.below(60) {
            0 => rng.of(&[127, 128, 254, 256]),
            1..=5 => rng.below(60),
            _ => rng.below(6),
        };
        let letters: &[u8] = if rng.one_in(8) { &[b'a', 0xc3, 0xa4] } else { b"aabAB;L" };
        let text = rng.bytes(n, letters);
        some_leb(&mut file, n as u64, rng);
        file.extend(text);
        if !rng.one_in(40) {
            file.push(0);
        }
    }

    // The map.
    if rng.one_in(2) {
        numbers[12] = file.len() as u32;
        let n = rng.below(4);
        let has = rng.below(n + 1);
        file.extend((n as u32).to_le_bytes());
        for i in 0..n {
            let kind = if i == has { 0x2000u16 } else { rng.of(&[0, 1, 0x2001, 0x1fff, 0x0020]) };
            file.extend(kind.to_le_bytes());
            file.extend([0, 0]);
            file.extend((nc as u32).to_le_bytes());
            file.extend(first.to_le_bytes());
        }
    }
    if with_last {
        file.resize(file.len().div_ceil(4) * 4, 0);
        let at = file.len();
        for place in of_last {
            file[place..place + 3].copy_from_slice(&[at as u8 | 0x80, (at >> 7) as u8 | 0x80, (at >> 14) as u8]);
        }
        let array = instructions(rng);
        code_item(&mut file, &array, rng);
    }
    // Room up to the end of the last block, but for some.
    if !rng.one_in(if with_last { 2 } else { 3 }) {
        file.resize(file.len().div_ceil(16) * 16, 0);
    }
    // The header's own words for strings, which the name filter reads.
    put(&mut file, 0x38, numbers[1]);
    put(&mut file, 0x3c, numbers[0]);
    Dex { file, numbers }
}
