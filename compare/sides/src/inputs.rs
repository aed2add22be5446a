//! The cases: every short one over a few bytes where that can be counted through, then random ones around the boundaries. A case is
//! given by seed, operation and number, whichever thread makes it.

use crate::case::*;
use crate::document;
use crate::synth::*;
use std::path::Path;

/// splitmix64
pub struct Rng(u64);

impl Rng {
    pub fn new(seed: u64, op: u32, index: u64) -> Self {
        let mut r = Rng(seed ^ (op as u64) << 56 ^ index.wrapping_mul(0x2545_f491_4f6c_dd1d));
        r.next();
        r
    }
    pub fn next(&mut self) -> u64 {
        self.0 = self.0.wrapping_add(0x9e37_79b9_7f4a_7c15);
        let mut z = self.0;
        z = (z ^ z >> 30).wrapping_mul(0xbf58_476d_1ce4_e5b9);
        z = (z ^ z >> 27).wrapping_mul(0x94d0_49bb_1331_11eb);
        z ^ z >> 31
    }
    pub fn below(&mut self, n: usize) -> usize {
        (self.next() % n.max(1) as u64) as usize
    }
    /// One time in n.
    pub fn one_in(&mut self, n: usize) -> bool {
        self.below(n) == 0
    }
    pub fn of<T: Copy>(&mut self, list: &[T]) -> T {
        list[self.below(list.len())]
    }
    /// Mostly n itself, else a number beside it or far from it.
    pub fn near(&mut self, n: u32) -> u32 {
        match self.below(16) {
            0 => n.wrapping_sub(1),
            1 => n.wrapping_add(1),
            2 => self.below(n as usize + 8) as u32,
            3 if self.one_in(4) => self.of(&[0, 1, 0x7fff_ffff, 0x8000_0000, u32::MAX - 1, u32::MAX]),
            _ => n,
        }
    }
    pub fn bytes(&mut self, n: usize, alphabet: &[u8]) -> Vec<u8> {
        (0..n).map(|_| if alphabet.is_empty() { self.next() as u8 } else { self.of(alphabet) }).collect()
    }
    pub fn words(&mut self, n: usize, below: usize) -> Vec<u32> {
        (0..n).map(|_| self.below(below) as u32).collect()
    }
}

/// A number read as digits of varying bases, for counting through small inputs.
struct Digits(u64);

impl Digits {
    fn take(&mut self, n: usize) -> usize {
        let d = self.0 % n as u64;
        self.0 /= n as u64;
        d as usize
    }
    /// Every list of at most `max` elements over an alphabet.
    fn list<T: Copy>(&mut self, alphabet: &[T], max: u32) -> Vec<T> {
        let n = alphabet.len();
        let total: usize = (0..=max).map(|i| n.pow(i)).sum();
        let mut rank = self.take(total);
        let mut len = 0;
        while rank >= n.pow(len) {
            rank -= n.pow(len);
            len += 1;
        }
        (0..len).map(|i| alphabet[rank / n.pow(i) % n]).collect()
    }
    fn done<T>(self, value: T) -> Option<T> {
        (self.0 == 0).then_some(value)
    }
}

/// Indices at the ends of a word of bits and of the tables in which searches mark what they find, and past these.
const ENDS: [u32; 11] = [0, 63, 64, 32_767, 32_768, 65_535, 65_536, 4_194_303, 4_194_304, 4_194_400, u32::MAX - 1];

/// The files that random cases begin with.
pub struct Inputs {
    small: Vec<Dex>,
    large: Vec<Dex>,
    pub seed: u64,
}

impl Inputs {
    /// `sample` is the repository's own file, `folder` one of larger files, which may be absent.
    pub fn new(seed: u64, sample: &Path, folder: &Path) -> Self {
        let read = |p: &Path| std::fs::read(p).ok().map(Dex::of_file);
        let small: Vec<Dex> = read(sample).into_iter().collect();
        let large = ["commons-cli.dex", "commons-cli-jumbo.dex"].iter().filter_map(|n| read(&folder.join(n))).collect();
        Inputs { small, large, seed }
    }

    pub fn case(&self, op: u32, index: u64) -> Case {
        let mut rng = Rng::new(self.seed, op, index);
        if let Some(case) = (index % 2 == 0).then(|| counted(op, index / 2)).flatten() {
            return case;
        }
        self.random(op, &mut rng)
    }

    /// A file with its record: made up, the sample, or (rarely) a larger one; often with something changed.
    fn dex(&self, rng: &mut Rng) -> Dex {
        let mut d = if rng.one_in(400) && !self.large.is_empty() {
            self.large[rng.below(self.large.len())].clone()
        } else if rng.one_in(8) && !self.small.is_empty() {
            self.small[rng.below(self.small.len())].clone()
        } else {
            made_up(rng)
        };
        if rng.one_in(2) {
            d.mutate(rng);
        }
        d
    }

    pub fn random(&self, op: u32, rng: &mut Rng) -> Case {
        let mut case = match op {
            TYPE_GROUPS | METHOD_GROUPS => self.groups(op, rng),
            GROUP => group(rng),
            STRING_MAP if rng.one_in(4) => many_strings(rng),
            STRING_MAP => self.with_dex(op, rng),
            STRING_BYTES => self.string_bytes(rng),
            STRING_DATA_BYTES => loop {
                let case = Case { op, ..self.string_bytes(rng) };
                if replay_takes(&case) {
                    break case;
                }
            },
            TYPES_OF | CLZ_SLICE | NAME_SLICE => Case { op, ..group(rng) },
            STRING_SEARCH | TYPE_SEARCH | METHOD_SEARCH => self.search(op, rng),
            NAME_FILTER => self.name_filter(rng),
            CODE_TABLE => self.with_dex(op, rng),
            SCAN => self.scan(rng),
            LOCATE => self.locate(rng),
            LIST_SLOT => self.list_slot(rng),
            FIND => self.find(rng),
            _ => unreachable!(),
        };
        lend(&mut case, rng);
        case
    }

    fn with_dex(&self, op: u32, rng: &mut Rng) -> Case {
        self.dex(rng).case(op)
    }

    fn groups(&self, op: u32, rng: &mut Rng) -> Case {
        if rng.one_in(2) {
            return self.with_dex(op, rng);
        }
        // A table alone, up to the end of the file or a byte less or more.
        let mut case = Case::new(op);
        let (stride, table) = if op == TYPE_GROUPS { (4, 2) } else { (8, 8) };
        let many = if rng.one_in(8) { 60 } else { 6 };
        let (off, n) = (rng.below(5), rng.below(many + 1));
        let pools = [rng.below(many) as u32, rng.below(many) as u32];
        case.file = rng.bytes(off, &[]);
        for _ in 0..n {
            if op == METHOD_GROUPS {
                let class = if rng.one_in(16) { rng.near(pools[1]) } else { rng.below(pools[1] as usize) as u32 } as u16;
                case.file.extend(class.to_le_bytes());
                case.file.extend((rng.next() as u16).to_le_bytes());
            }
            let key = match rng.below(16) {
                0 => rng.near(pools[0]),
                1 => pools[0] + 1 + rng.below(3) as u32,
                _ => rng.below(pools[0] as usize) as u32,
            };
            case.file.extend(key.to_le_bytes());
        }
        let spare = rng.of(&[0, 0, 0, 1, 2]);
        case.file.extend(rng.bytes(spare, &[]));
        if rng.one_in(4) {
            case.file.pop();
        }
        case.numbers[table] = off as u32;
        case.numbers[table + 1] = rng.near(n as u32);
        if (case.numbers[table] as usize + stride * case.numbers[table + 1] as usize) > case.file.len() && rng.one_in(2) {
            case.numbers[table + 1] = n as u32;
        }
        case.numbers[1] = pools[0];
        if op == METHOD_GROUPS {
            case.numbers[3] = pools[1];
        }
        if rng.one_in(40) {
            let i = rng.of(&[0, 1, 2, 3, 8, 9]);
            case.numbers[i] = rng.next() as u32;
        }
        case
    }

    fn string_bytes(&self, rng: &mut Rng) -> Case {
        let mut case = Case::new(STRING_BYTES);
        if rng.one_in(3) {
            let d = self.dex(rng);
            let off = d.string_offset(rng);
            case.file = d.file;
            case.numbers[13] = rng.near(off);
        } else if rng.one_in(3) {
            // A long text: its zero, if any, stands anywhere.
            let n = 1 + rng.below(120);
            case.file = rng.bytes(n, &[0x61, 0x01, 0xff]);
            case.file[0] &= 0x7f;
            for _ in 0..rng.below(3) {
                let at = rng.below(n);
                case.file[at] = 0;
            }
            case.numbers[13] = if rng.one_in(2) { 0 } else { rng.below(n) as u32 };
        } else {
            let n = rng.below(12);
            case.file = rng.bytes(n, &[0x00, 0x0f, 0x10, 0x7f, 0x80, 0x81, 0xff, 0x61]);
            case.numbers[13] = rng.below(n + 2) as u32;
        }
        if rng.one_in(50) {
            case.numbers[13] = rng.next() as u32;
        }
        if rng.one_in(60) {
            case.high = rng.of(&[1, u32::MAX]);
            case.numbers[13] = rng.of(&[0, 1, u32::MAX - 4, u32::MAX]);
        }
        case
    }

    fn search(&self, op: u32, rng: &mut Rng) -> Case {
        let d = self.dex(rng);
        let mut case = d.case(op);
        match d.string_map() {
            // As many strings as the smaller table of marks has bits for, or some more, their data in falling order.
            _ if rng.one_in(1000) => {
                let (from, n) = (case.file.len(), 32_700 + rng.below(140));
                case.file.extend((0..n).flat_map(|_| [1, if rng.one_in(3) { b'a' } else { b'b' }, 0]));
                case.keys = (0..n).map(|i| ((from + 3 * i) as u64) << 32 | (n - 1 - i) as u64).collect();
                (case.numbers[13], case.numbers[14]) = (from as u32, (from + 3 * n) as u32);
            }
            // One text of two letters after the file, and many keys in it whose indices are in any order.
            _ if rng.one_in(6) => {
                let (from, text, n) = (case.file.len(), 20 + rng.below(180), 1 + rng.below(40));
                let letters: &[u8] = if rng.one_in(2) { b"aab" } else { b"bbbbbbbbbbbbbbbbbbba" };
                case.file.extend(rng.bytes(text, letters));
                let ends = rng.one_in(3);
                let mut index = || if ends && rng.one_in(2) { rng.of(&ENDS) as u64 } else { rng.below(30) as u64 };
                let indices: Vec<u64> = (0..n).map(|_| index()).collect();
                case.keys = indices.iter().map(|i| ((from + rng.below(text)) as u64) << 32 | i).collect();
                case.keys.sort();
                case.keys.dedup();
                (case.numbers[13], case.numbers[14]) = (from as u32, (from + text) as u32);
            }
            Some((keys, start, end)) if !rng.one_in(8) => {
                case.keys = keys;
                case.numbers[13] = start;
                case.numbers[14] = end;
            }
            _ => {
                let n = case.file.len();
                case.keys = (0..rng.below(6)).map(|_| (rng.below(n + 2) as u64) << 32 | rng.below(5) as u64).collect();
                if !rng.one_in(4) {
                    case.keys.sort();
                    case.keys.dedup();
                }
                case.numbers[13] = rng.below(n + 2) as u32;
                case.numbers[14] = rng.below(n + 2) as u32;
                if case.numbers[13] > case.numbers[14] && !rng.one_in(4) {
                    case.numbers.swap(13, 14);
                }
            }
        }
        if rng.one_in(16) {
            case.numbers[13] = rng.near(case.numbers[13]);
        }
        if rng.one_in(16) {
            let n = case.file.len() as u32;
            let near_end = rng.near(n);
            case.numbers[14] = rng.of(&[near_end, n, case.numbers[14].wrapping_sub(1)]);
        }
        if rng.one_in(24) && !case.keys.is_empty() {
            let i = rng.below(case.keys.len());
            match rng.below(5) {
                0 => case.keys[i] |= 0xffff_ffff,
                1 => case.keys[i] = case.keys[0],
                2 => case.keys[i] = rng.next(),
                3 => case.keys.reverse(),
                _ => {
                    case.keys.remove(i);
                }
            }
        }
        case.query = query(&case, rng);
        if op == METHOD_SEARCH {
            case.second = query(&case, rng);
            for q in [&mut case.query, &mut case.second] {
                if rng.one_in(4) {
                    q.clear();
                }
            }
        }
        if op != STRING_SEARCH {
            case.lists[..2].clone_from_slice(&d.type_groups());
            if rng.one_in(6) {
                made_up_groups(&mut case.lists, rng);
                if rng.one_in(2) {
                    case.lists[1].iter_mut().for_each(|id| *id = if rng.one_in(2) { rng.of(&ENDS) } else { *id });
                }
            }
        }
        case
    }

    fn name_filter(&self, rng: &mut Rng) -> Case {
        let d = self.dex(rng);
        let mut case = d.case(NAME_FILTER);
        let count = d.numbers[1];
        let n = if rng.one_in(8) { rng.below(60) } else { rng.below(7) };
        case.lists[0] = (0..n).map(|_| rng.below(count as usize) as u32).collect();
        if rng.one_in(12) && n > 0 {
            let at = rng.below(n);
            case.lists[0][at] = rng.near(count);
        }
        let mut q = d.text(rng);
        let a = rng.below(q.len() + 1);
        let n = rng.below(4);
        q = q[a..(a + n).min(q.len())].to_vec();
        for b in &mut q {
            if rng.one_in(2) {
                *b = if rng.one_in(2) { b.to_ascii_lowercase() } else { b.to_ascii_uppercase() };
            }
        }
        match rng.below(40) {
            0 => q = rng.bytes(255, b"ab"),
            1 => q = rng.bytes(256, b"ab"),
            2 => q.push(0x80),
            3 => q = rng.bytes(2, b"@[`{aAzZ"),
            _ => {}
        }
        case.query = q;
        case
    }

    fn scan(&self, rng: &mut Rng) -> Case {
        let mut case = Case::new(SCAN);
        let kind = 1 + rng.below(4) as u32;
        if rng.one_in(6) {
            let d = self.dex(rng);
            if let Ok((numbers, _)) = document::answer(&generous(d.case(CODE_TABLE))) {
                case.numbers[13] = numbers[0] as u32;
                case.numbers[14] = numbers[1].min(d.file.len()) as u32;
            }
            case.file = d.file;
            let n = 1 + rng.below(6);
            case.lists[0] = rng.words(n, 24);
        } else {
            let n = if rng.one_in(4) { rng.below(200) } else { rng.below(40) };
            case.file = rng.bytes(n, OPENERS[kind as usize - 1]);
            match rng.below(8) {
                0 => case.file = rng.bytes(n, &[]),
                // Few openers among zeros, or among what could be taken for them.
                5 if n > 0 => {
                    case.file = rng.bytes(n, &[0x00, 0x05, 0x19, 0x1c]);
                    for _ in 0..1 + rng.below(4) {
                        let at = rng.below(n);
                        case.file[at] = rng.of(&OPENERS[kind as usize - 1][..6]);
                        if at + 3 < n {
                            case.file[at + 2..at + 4].copy_from_slice(&[rng.below(7) as u8, 0]);
                        }
                    }
                }
                // Openers where an instruction may stand, and indices after them.
                1..=4 => {
                    let (even, high) = (rng.below(2), !rng.one_in(4));
                    for at in (even..n).step_by(4) {
                        case.file[at] = rng.of(&OPENERS[kind as usize - 1][..6]);
                        if at + 2 < n {
                            case.file[at + 2] = rng.below(7) as u8;
                        }
                        if at + 3 < n && high {
                            case.file[at + 3] = 0;
                        }
                    }
                }
                _ => {}
            }
            case.numbers[13] = rng.below(4) as u32;
            case.numbers[14] = (n - rng.below(3.min(n + 1))) as u32;
            let m = rng.below(6);
            case.lists[0] = rng.words(m, 7);
            for w in &mut case.lists[0] {
                if rng.one_in(3) {
                    *w = match rng.below(4) {
                        0 => *w << 8,
                        1 => *w << 16,
                        2 => 0x1a | *w << 8,
                        _ => rng.next() as u32,
                    };
                }
            }
            // Indices with one low half.
            if rng.one_in(4) && m > 0 {
                let w = case.lists[0][rng.below(m)];
                for _ in 0..1 + rng.below(3) {
                    case.lists[0].push(w & 0xffff | (rng.below(3) as u32) << 16);
                }
            }
            // An index that stands in the file.
            if n >= 4 && rng.one_in(2) {
                let at = rng.below(n - 3);
                let w = u32::from_le_bytes(case.file[at..at + 4].try_into().unwrap());
                case.lists[0].push(if rng.one_in(2) { w & 0xffff } else { w });
            }
        }
        if rng.one_in(20) {
            case.numbers[13] = rng.near(case.numbers[14]);
        }
        if rng.one_in(20) {
            case.numbers[14] = rng.near(case.file.len() as u32);
        }
        case.numbers[15] = if rng.one_in(40) { rng.of(&[0, 5, 6, 257, u32::MAX]) } else { kind };
        case
    }

    fn locate(&self, rng: &mut Rng) -> Case {
        if rng.one_in(4) {
            return many_misses(rng);
        }
        let mut case = Case::new(LOCATE);
        let table = if !rng.one_in(3) {
            let d = self.dex(rng);
            let mut c = generous(d.case(CODE_TABLE));
            c.op = CODE_TABLE;
            document::answer(&c).ok().map(|a| (d.file, a))
        } else {
            None
        };
        if let Some((file, (numbers, lists))) = table {
            case.numbers[13] = (numbers[0] / 16) as u32;
            for (to, from) in [(0, 2), (1, 0), (2, 3)] {
                case.lists[to] = lists[from].iter().map(|&w| w as u32).collect();
            }
            let n = rng.below(12);
            let (a, e) = (numbers[0], numbers[1].min(file.len() + 3));
            case.lists[3] = (0..n).map(|_| (a + rng.below((e + 2).saturating_sub(a).max(1))) as u32).collect();
            // Starts of instructions and payloads: what the walks confirm, and past the ends of arrays would.
            for pair in case.lists[1].clone().chunks(2).filter(|pair| pair[0] != 0) {
                let mut pos = pair[0] as usize;
                for _ in 0..rng.below(6) {
                    if rng.one_in(2) {
                        case.lists[3].push(pos as u32);
                    }
                    pos = document::step(&file, pos).unwrap_or(pos + 2);
                }
                if rng.one_in(3) {
                    case.lists[3].push(rng.near(pair[1]));
                }
                // One offset after another, some left out, some several times: misses, most of them.
                if rng.one_in(4) {
                    let n = rng.below(40) as u32;
                    case.lists[3].extend((pair[0]..pair[0] + n).flat_map(|at| vec![at; rng.of(&[0, 0, 1, 1, 1, 2, 3])]));
                }
            }
            if !rng.one_in(4) {
                case.lists[3].sort();
            }
            case.file = file;
            // Pairs otherwise than a build leaves them.
            if rng.one_in(4) {
                for pair in case.lists[1].chunks_exact_mut(2) {
                    if rng.one_in(2) {
                        pair[1] = some_end(rng, pair[0], case.file.len());
                    }
                }
            }
            if rng.one_in(16) {
                case.lists[1].pop();
            }
        } else {
            let n = rng.below(70);
            case.file = rng.bytes(n, &[0x00, 0x00, 0x0e, 0x12, 0x1a, 0x02, 0x1b, 0x6e, 0xfa, 0x18, 0x73, 0x01]);
            if rng.one_in(3) {
                let (at, payload) = (rng.below(n + 1), some_payload(rng));
                let end = (at + payload.len()).min(n);
                case.file.splice(at..end, payload);
            }
            case.numbers[13] = rng.below(3) as u32;
            let (slots, methods, shares, entries) = (rng.below(6), rng.below(6), rng.below(5), rng.below(9));
            for _ in 0..methods {
                let start = if rng.one_in(5) { 0 } else { rng.below(n + 2) as u32 };
                let end = some_end(rng, start, n);
                case.lists[1].extend([start, end]);
            }
            // An odd last word: one too many or, for the last method, one too few.
            match rng.below(12) {
                0 => case.lists[1].push(rng.below(n + 2) as u32),
                1 => drop(case.lists[1].pop()),
                _ => {}
            }
            case.lists[2] = (0..shares)
                .flat_map(|k| [rng.below(methods + 1 - methods.min(1)) as u32, rng.below(6) as u32, rng.below(k + 1) as u32])
                .collect();
            if rng.one_in(8) {
                case.lists[2].pop();
            }
            case.lists[0] = (0..slots).map(|_| slot_word(rng, methods, shares)).collect();
            case.lists[3] = (0..entries).map(|_| rng.below(n + 40) as u32).collect();
            if rng.one_in(2) {
                case.lists[3].sort();
            }
        }
        if rng.one_in(30) {
            case.numbers[13] = rng.near(case.numbers[13]);
        }
        if rng.one_in(30) {
            let i = rng.below(4);
            if !case.lists[i].is_empty() {
                let at = rng.below(case.lists[i].len());
                let w = case.lists[i][at];
                case.lists[i][at] = rng.near(w);
            }
        }
        case
    }

    fn find(&self, rng: &mut Rng) -> Case {
        if rng.one_in(4) {
            return many_uses(rng);
        }
        let mut case = self.dex(rng).case(FIND);
        case.numbers[13] = if rng.one_in(40) { rng.of(&[0, 5, u32::MAX]) } else { 1 + rng.below(4) as u32 };
        let n = rng.below(5);
        case.lists[0] = rng.words(n, 9);
        case
    }

    fn list_slot(&self, rng: &mut Rng) -> Case {
        let mut case = Case::new(LIST_SLOT);
        if rng.one_in(6) {
            if let Ok((_, lists)) = document::answer(&generous(self.dex(rng).case(CODE_TABLE))) {
                case.lists[0] = lists[3].iter().map(|&w| w as u32).collect();
                let slots = &lists[2];
                case.numbers[13] = if slots.is_empty() { 0 } else { slots[rng.below(slots.len())] as u32 };
                return case;
            }
        }
        let n = rng.below(9);
        for k in 0..n {
            let earlier = match rng.below(10) {
                0..=2 => 0,
                3 => rng.below(n + 2),
                _ => rng.below(k + 1),
            };
            let (first, last) = (rng.below(20), rng.below(20));
            case.lists[0].extend([first as u32, last as u32, earlier as u32]);
        }
        // A chain through all shares.
        if rng.one_in(3) {
            for k in 0..n {
                case.lists[0][3 * k + 2] = k as u32;
            }
        }
        if rng.one_in(10) {
            case.lists[0].pop();
        }
        case.numbers[13] = slot_word(rng, 20, n);
        case
    }
}

/// Up to three methods with many uses of one kind, of a few indices, among other instructions; two methods may have one code. By class
/// definition: class data at 32, code from 64 on.
fn many_uses(rng: &mut Rng) -> Case {
    let mut case = Case::new(FIND);
    case.file = vec![0; 64];
    case.file[24] = 32;
    let (kind, methods) = (1 + rng.below(4) as u32, 1 + rng.below(3));
    let mut data = vec![0, 0, methods as u8, 0];
    let mut code = 0;
    for m in 0..methods {
        if m == 0 || !rng.one_in(4) {
            case.file.resize(case.file.len().next_multiple_of(4), 0);
            code = case.file.len();
            case.file.extend([0; 16]);
            for _ in 0..2 + rng.below(14) {
                if rng.one_in(4) {
                    case.file.extend(instructions(rng));
                    continue;
                }
                let (mut used, mut of) = rng.of(&USES);
                while of != kind {
                    (used, of) = rng.of(&USES);
                }
                let at = case.file.len();
                case.file.extend(used);
                case.file[at + 2] = rng.below(6) as u8;
            }
            let units = (case.file.len() - code - 16) / 2;
            put(&mut case.file, code + 12, units as u32);
        }
        [(m > 0) as u64, 0, code as u64].iter().for_each(|&x| leb(&mut data, x));
    }
    case.file[32..32 + data.len()].copy_from_slice(&data);
    if !rng.one_in(4) {
        case.file.resize(case.file.len().next_multiple_of(16), 0);
    }
    (case.numbers[9], case.numbers[11], case.numbers[13]) = (methods as u32, 1, kind);
    let n = rng.below(7);
    case.lists[0] = rng.words(n, 6);
    case
}

/// Whole instructions, now and then with payloads among them, and up to three methods over them, block by block. To locate are many offsets, some
/// several times, of which most are misses. Most lists are nondecreasing.
fn many_misses(rng: &mut Rng) -> Case {
    let mut case = Case::new(LOCATE);
    let from = rng.below(40);
    case.file = vec![0; from];
    for _ in 0..1 + rng.below(5) {
        let more = if rng.one_in(4) { MISSED.repeat(1 + rng.below(12)) } else { instructions(rng) };
        case.file.extend(more);
    }
    let n = case.file.len();
    case.numbers[13] = (from / 16).saturating_sub(rng.below(2)) as u32;
    let (methods, shares) = (1 + rng.below(3), rng.below(3));
    for _ in 0..methods {
        let mut start = from;
        for _ in 0..rng.below(4) {
            start = document::step(&case.file, start).unwrap_or(start);
        }
        let start = match rng.below(12) {
            0 => 0,
            1 => rng.below(n + 2),
            2 | 3 => from + 1 + rng.below(3),
            4..=6 => start,
            _ => from,
        } as u32;
        let end = if rng.one_in(3) { some_end(rng, start, n) } else { n as u32 };
        case.lists[1].extend([start, end]);
    }
    case.lists[2] = (0..shares).flat_map(|k| [rng.below(methods) as u32, rng.below(methods) as u32, rng.below(k + 1) as u32]).collect();
    // A few words in turn.
    let turn: Vec<u32> = (0..1 + rng.below(4))
        .map(|_| if shares > 0 && rng.one_in(3) { (1 << 31) + rng.below(shares) as u32 } else { 1 + rng.below(methods) as u32 })
        .collect();
    case.lists[0] = turn.iter().copied().cycle().take(n / 16 + 2).collect();
    if rng.one_in(4) {
        let at = rng.below(case.lists[0].len());
        case.lists[0][at] = 0;
    }
    let (first, more) = (rng.below(n - from) + from, rng.of(&[8, 24, 60]));
    let times = if rng.one_in(2) { vec![0, 1] } else { vec![0, 0, 0, 0, 1, 1, 2, 3] };
    let first = if rng.one_in(2) { from } else { first };
    case.lists[3] = (first as u32..(first + more).min(n + 4) as u32).flat_map(|at| vec![at; rng.of(&times)]).collect();
    let entries = case.lists[3].len();
    match rng.below(10) {
        0 => case.lists[3].reverse(),
        1 if entries > 0 => case.lists[3].swap(rng.below(entries), rng.below(entries)),
        _ => {}
    }
    case
}

/// The second word of a pair: most often somewhere after the start, now and then far off, 0, before the start or on it.
fn some_end(rng: &mut Rng, start: u32, n: usize) -> u32 {
    match rng.below(12) {
        0 => 0,
        1 => start,
        2 => rng.below(start as usize + 1) as u32,
        3 => u32::MAX,
        4..=6 => start + rng.below(n + 8) as u32,
        _ => start + 1 + rng.below(24) as u32,
    }
}

/// A slot word: free, a method, or a share, now and then one too far.
fn slot_word(rng: &mut Rng, methods: usize, shares: usize) -> u32 {
    match rng.below(12) {
        0 | 1 => 0,
        2..=6 => 1 + rng.below(methods.max(1)) as u32,
        7 if rng.one_in(4) => rng.of(&[0x7fff_ffff, 0x8000_0000, u32::MAX, methods as u32 + 1]),
        8 if rng.one_in(4) => 0x8000_0000 + shares as u32,
        _ if shares == 0 => 1 + rng.below(methods.max(1)) as u32,
        _ => 0x8000_0000 + rng.below(shares) as u32,
    }
}

const OPENERS: [&[u8]; 4] = [
    &[0x1a, 0x1a, 0x1b, 0x1b, 0x00, 0x00, 0x00, 0x05, 0x06, 0x19, 0x1c],
    &[0x1c, 0x1f, 0x20, 0x21, 0x22, 0x25, 0x26, 0x00, 0x00, 0x05, 0x05],
    &[0x51, 0x52, 0x5f, 0x60, 0x6d, 0x6e, 0x00, 0x00, 0x05, 0x05],
    &[0x6d, 0x6e, 0x72, 0x73, 0x74, 0x78, 0x79, 0xf9, 0xfa, 0xfb, 0xfc, 0x00, 0x00, 0x00, 0x05, 0x05],
];

/// A query: mostly bytes that stand in the area or the file.
fn query(case: &Case, rng: &mut Rng) -> Vec<u8> {
    match rng.below(24) {
        0 => vec![],
        1 => rng.bytes(255, b"ab"),
        2 => rng.bytes(256, b"ab"),
        3 => rng.bytes(1, &[0x00, 0x01, 0x80, b'a']),
        4..=9 => {
            let n = 1 + rng.below(3);
            rng.bytes(n, b"abL;")
        }
        _ => {
            let (a, e) = (case.numbers[13] as usize, (case.numbers[14] as usize).min(case.file.len()));
            let area = if a < e { &case.file[a..e] } else { &case.file[..] };
            let at = rng.below(area.len());
            let n = if rng.one_in(30) { rng.of(&[254, 255, 256]) } else { 1 + rng.below(5) };
            area[at.min(area.len())..(at + n).min(area.len())].to_vec()
        }
    }
}

/// Many strings whose data begin anywhere in one short text, in any order, often on one offset.
fn many_strings(rng: &mut Rng) -> Case {
    let mut case = Case::new(STRING_MAP);
    let n = if rng.one_in(8) { rng.below(300) } else { rng.below(24) };
    let (before, text) = (rng.below(5), 1 + rng.below(60));
    case.file = rng.bytes(before, &[]);
    case.numbers[..2].copy_from_slice(&[before as u32, n as u32]);
    let area = before + 4 * n;
    for i in 0..n {
        let at = match rng.below(3) {
            0 => area + i * text / n,
            _ => area + rng.below(text),
        };
        case.file.extend((at as u32).to_le_bytes());
    }
    case.file.extend(rng.bytes(text, &[0x00, 0x61, 0x61, 0x7f, 0x80]));
    // The last string may have a length of any number of bytes.
    if n > 0 && rng.one_in(3) {
        let last = case.file.len() as u32;
        let at = before + 4 * rng.below(n);
        case.file[at..at + 4].copy_from_slice(&last.to_le_bytes());
        let long = rng.below(9);
        case.file.extend(rng.bytes(long, &[0x80, 0xff]));
        let tail = 1 + rng.below(3);
        case.file.extend(rng.bytes(tail, &[0x00, 0x01, 0x7f]));
    }
    if rng.one_in(3) {
        let n = rng.below(70);
        case.file.extend(rng.bytes(n, &[0x61, 0x01, 0x80]));
    }
    if !rng.one_in(4) {
        case.file.push(0);
    }
    case
}

fn made_up_groups(lists: &mut [Vec<u32>; 4], rng: &mut Rng) {
    let (n, m) = (rng.below(7), rng.below(7));
    lists[0] = (0..n).map(|_| rng.below(m + 1) as u32).collect();
    if !rng.one_in(3) {
        lists[0].sort();
    }
    if rng.one_in(8) && n > 0 {
        let at = rng.below(n);
        lists[0][at] = rng.near(m as u32);
    }
    lists[1] = rng.words(m, 6);
}

fn group(rng: &mut Rng) -> Case {
    let mut case = Case::new(GROUP);
    made_up_groups(&mut case.lists, rng);
    let n = case.lists[0].len() as u32;
    case.numbers[13] = if rng.one_in(3) { rng.near(n.wrapping_sub(1)) } else { rng.below(n as usize + 1) as u32 };
    case
}

/// A case whose lent slices are large enough for what is made here.
pub fn generous(mut case: Case) -> Case {
    case.lent = [1 << 17; 8];
    case
}

fn lent(case: &mut Case, lengths: &[u32]) {
    case.lent[..lengths.len()].copy_from_slice(lengths);
}

/// Lends what the answer needs, often exactly, now and then a word less or more.
fn lend(case: &mut Case, rng: &mut Rng) {
    let (_, outs) = shape(case.op);
    if hands_back_part(case.op) {
        return;
    }
    *case = generous(std::mem::take(case));
    let mut needed = [16usize; 8];
    if let Ok((_, lists)) = document::answer(case) {
        for (n, list) in needed.iter_mut().zip(&lists) {
            *n = list.len();
        }
        match case.op {
            // Lent to work in: what they need isn't in the answer.
            TYPE_SEARCH | METHOD_SEARCH => {
                let spare = |rng: &mut Rng| if rng.one_in(2) { 64 } else { rng.below(8) };
                needed[0] = spare(rng);
                if case.op == METHOD_SEARCH {
                    needed[1] = spare(rng);
                }
            }
            LOCATE => needed[0] = case.lists[1].len() / 2,
            FIND => needed[6] = case.methods().size as usize,
            _ => {}
        }
    }
    let short = rng.one_in(8);
    for i in 0..8 {
        let n = needed[i];
        let n = match rng.below(8) {
            0 | 1 if short => n.saturating_sub(1),
            2 if short => rng.below(n + 1),
            3 | 4 => n + 1 + rng.below(3),
            5 => n + 7,
            _ => n,
        };
        case.lent[i] = if i < outs { n as u32 } else { 0 };
    }
}

/// The cases of every run, however few it makes: a file of the greatest length and one of a byte more, which every operation
/// refuses (1); a method index at its limit, and padded numbers in each place of class data; code at a file's end; payloads among
/// instructions; uses after the end of an array; lists that a walk goes through from entry to entry; several wanted indices for the finder; name
/// filters around the sizes at which ours changes its tables, and above all of them.
pub fn always(op: u32) -> Vec<Case> {
    let mut cases: Vec<Case> = [LARGEST, LARGEST + 1].into_iter().flat_map(|n| at_length(op, n)).collect();
    match op {
        NAME_FILTER => cases.extend(many_names()),
        CODE_TABLE => {
            cases.extend([16_777_215, 16_777_216].map(greatest_method));
            cases.extend(padded_numbers(op));
            cases.extend(code_at_the_end(op));
            cases.extend(array_ends(op));
        }
        FIND => {
            cases.extend(padded_numbers(op));
            cases.extend(code_at_the_end(op));
            cases.extend(payloads(op));
            cases.extend(array_ends(op));
            cases.extend(wanted_together());
        }
        LOCATE => {
            cases.extend(payloads(op));
            cases.extend(greatest_payload());
            cases.extend(array_ends(op));
            cases.extend(walks_that_go_on());
        }
        SCAN => {
            cases.push(great_indices());
            cases.extend(code_at_the_end(op));
        }
        _ => {}
    }
    cases
}

/// A file of n bytes, above the limit or at it, and something to find at its end.
fn at_length(op: u32, n: usize) -> Vec<Case> {
    let mut case = Case::new(op);
    case.file = vec![0; n];
    let end = n as u32;
    let (_, outs) = shape(op);
    case.lent[..outs].fill(4);
    match op {
        TYPE_GROUPS => case.numbers[1..4].copy_from_slice(&[1, end - 4, 1]),
        METHOD_GROUPS => {
            (case.numbers[1], case.numbers[3]) = (1, 1);
            case.numbers[8..10].copy_from_slice(&[end - 8, 1]);
        }
        STRING_MAP => case.numbers[..2].copy_from_slice(&[end - 4, 1]),
        STRING_BYTES => case.numbers[13] = end - 2,
        STRING_SEARCH | TYPE_SEARCH | METHOD_SEARCH => {
            // The one find is string 1's, which is type 0's, which is method 0's class.
            (case.numbers[13], case.numbers[14]) = (1, end);
            case.keys = vec![1 << 32, 5 << 32 | 1];
            case.file[n - 1] = b'a';
            case.query = b"a".to_vec();
            if op != STRING_SEARCH {
                (case.lists[0], case.lists[1]) = (vec![0, 0, 1], vec![0]);
            }
            if op == METHOD_SEARCH {
                case.numbers[8..10].copy_from_slice(&[8, 1]);
            }
        }
        NAME_FILTER => {
            put(&mut case.file, 0x38, 1);
            put(&mut case.file, 0x3c, end - 4);
            case.file[1] = b'A';
            case.query = b"a".to_vec();
            case.lists[0] = vec![0];
        }
        CODE_TABLE | FIND => {
            // By class definition: class data at 32, and code in the last block.
            let code = end / 4 * 4 - 20;
            let mut data = vec![0, 0, 1, 0, 0, 0];
            leb(&mut data, code as u64);
            case.file[24] = 32;
            case.file[32..32 + data.len()].copy_from_slice(&data);
            case.file[code as usize + 12] = 2;
            case.file[code as usize + 16..code as usize + 20].copy_from_slice(&[0x1a, 0, 5, 0]);
            (case.numbers[9], case.numbers[11], case.numbers[13]) = (1, 1, (op == FIND) as u32);
            if op == FIND {
                case.lists[0] = vec![5];
            }
        }
        SCAN => {
            let kinds = [0x1a, 0x1c, 0x52, 0x6e].into_iter().zip(1..);
            return kinds
                .map(|(opcode, kind)| {
                    let mut case = case.clone();
                    case.numbers[13..].copy_from_slice(&[0, end, kind]);
                    case.lists[0] = vec![0];
                    case.file[n - 4 - n % 2] = opcode;
                    case
                })
                .collect();
        }
        LOCATE => {
            let at = end - 2;
            case.numbers[13] = at / 16;
            case.lists = [vec![1], vec![at / 16 * 16, end], vec![], vec![at]];
        }
        // No file, or none that the program `replay` takes.
        _ => return vec![],
    }
    vec![case]
}

/// By class definition: class data at 32, one method of this index, code at 64; a method more in the record.
fn greatest_method(index: u32) -> Case {
    let mut case = Case::new(CODE_TABLE);
    let mut data = vec![0, 0, 1, 0];
    [index as u64, 0, 64].iter().for_each(|&x| leb(&mut data, x));
    case.file = vec![0; 96];
    case.file[24] = 32;
    case.file[32..32 + data.len()].copy_from_slice(&data);
    case.file[76] = 1;
    case.numbers[11] = 1;
    case.numbers[9] = 16_777_217;
    lent(&mut case, &[2 * 16_777_217, 3, 1, 0]);
    case
}

/// A class definition at 0, a map at 32, a code item at 48, of const-string of index 0, and a class data item at 80, of these numbers. By the
/// map or by the class definition.
fn class_data_of(op: u32, numbers: &[Vec<u8>], by_map: bool) -> Case {
    let mut case = Case::new(op);
    case.file = vec![0; 80];
    case.file[24] = 80;
    case.file[32..48].copy_from_slice(&[1, 0, 0, 0, 0, 0x20, 0, 0, 1, 0, 0, 0, 80, 0, 0, 0]);
    case.file[60] = 2;
    case.file[64] = 0x1a;
    case.file.extend(numbers.concat());
    case.numbers[9..13].copy_from_slice(&[3, 0, 1, if by_map { 32 } else { 0 }]);
    if op == FIND {
        (case.numbers[13], case.lists[0]) = (1, vec![0]);
    }
    case.lent = [16; 8];
    case
}

/// Class data in which one number is written otherwise, each in turn: in five bytes, whose fifth fits 32 bits or doesn't, in six, and cut
/// off after each byte. Two field counts whose sum passes 32 bits come last.
fn padded_numbers(op: u32) -> Vec<Case> {
    let short = |list: &[u8]| list.iter().map(|&b| vec![b]).collect::<Vec<_>>();
    let whole = short(&[1, 1, 2, 1, 3, 1, 4, 2, 0, 9, 48, 1, 0, 0, 2, 1, 48]);
    let mut cases = Vec::new();
    for place in 0..whole.len() {
        let mut ways = vec![vec![0xff, 0xff, 0xff, 0xff, 0x0f], vec![0xff, 0xff, 0xff, 0xff, 0x10]];
        for first in [0x80, whole[place][0] | 0x80] {
            ways.extend([0x00, 0x01, 0x0f, 0x10, 0x7f, 0x80].map(|fifth| vec![first, 0x80, 0x80, 0x80, fifth]));
            ways.push(vec![first, 0x80, 0x80, 0x80, 0x80, 0x00]);
        }
        for way in ways {
            for by_map in [false, true] {
                let mut numbers = whole.clone();
                numbers[place] = way.clone();
                let case = class_data_of(op, &numbers, by_map);
                for cut in 0..=way.len() {
                    let mut case = case.clone();
                    case.file.truncate(80 + place + cut);
                    cases.push(case);
                }
                cases.push(case);
            }
        }
    }
    for instances in [1, 2] {
        let mut numbers = short(&[0, instances, 1, 0]);
        numbers[0] = vec![0xff, 0xff, 0xff, 0xff, 0x0f];
        numbers.extend(short(&[7, 7, 0, 0, 48][4 - 2 * instances as usize..]));
        cases.push(class_data_of(op, &numbers, false));
    }
    cases
}

/// A use of index 5, and its kind.
const USES: [(&[u8], u32); 5] = [
    (&[0x1a, 0, 5, 0], 1),
    (&[0x1b, 0, 5, 0, 0, 0], 1),
    (&[0x22, 0, 5, 0], 2),
    (&[0x52, 0, 5, 0], 3),
    (&[0x6e, 0x10, 5, 0, 0, 0], 4),
];

/// One method, whose array ends with a use of index 5, and a file that is cut a byte before the array's end, ends with it, or goes on for up to
/// 17 bytes: so the array's last block is whole, sticks out by any number of bytes, or stands before others. Code offsets are any, though a
/// published one is a multiple of 4. A scan is over the region as SPEC has it, and over one that is a byte longer than the file.
fn code_at_the_end(op: u32) -> Vec<Case> {
    let mut cases = Vec::new();
    for (code, (last, kind)) in (48..64).flat_map(|code| USES.map(|u| (code, u))) {
        let start = code + 16;
        let stop = start + 2 + last.len();
        for len in stop - 1..=stop + 17 {
            let mut case = Case::new(op);
            case.file = vec![0; start];
            case.file[24] = 32;
            case.file[32..39].copy_from_slice(&[0, 0, 1, 0, 0, 0, code as u8]);
            case.file[code + 12] = ((stop - start) / 2) as u8;
            case.file.extend([0x0e, 0]);
            case.file.extend(last);
            case.file.resize(len, 0);
            case.lent = [16; 8];
            case.lists[0] = vec![5];
            if op == SCAN {
                for end in [(stop.div_ceil(16) * 16).min(len), len + 1] {
                    case.numbers[13..].copy_from_slice(&[(start / 16 * 16) as u32, end as u32, kind]);
                    cases.push(case.clone());
                }
                continue;
            }
            (case.numbers[9], case.numbers[11], case.numbers[13]) = (1, 1, kind);
            if op == CODE_TABLE {
                case.numbers[13] = 0;
                case.lists[0].clear();
            }
            cases.push(case);
        }
    }
    cases
}

/// Small payloads between two uses, of each kind, size and width; their data are zeros, the use again and again, bytes that are no opcode, or
/// what looks like payloads. Likewise payloads before a use alone, and two of them between two.
fn between_uses(used: &[u8]) -> Vec<Vec<u8>> {
    let small = [1, 2].iter().flat_map(|&high| (0..4).map(move |size| (high, 0, size)));
    let small = small.chain([0, 1, 2, 4, 8].iter().flat_map(|&width| [0, 1, 2, 3, 5].map(|size| (3, width, size))));
    let mut arrays = Vec::new();
    for (high, width, size) in small {
        for data in [&[0], used, &[0x73], &[0, 3, 1, 0]] {
            arrays.push([used, &payload(high, width, size, data), used].concat());
        }
    }
    for first in 1..=3 {
        let first = payload(first, 2, 1, used);
        arrays.push([&first, used].concat());
        for second in 1..=3 {
            arrays.push([used, &first, &payload(second, 1, 3, used), used].concat());
        }
    }
    arrays
}

/// Payloads at the end of a file and past it, and units that are none. All begin with const-string of index 5.
fn other_payloads() -> Vec<Vec<u8>> {
    let used: &[u8] = &[0x1a, 0, 5, 0];
    let mut arrays = Vec::new();
    // Cut off after each byte.
    for (high, width, size) in [(1, 0, 0), (1, 0, 1), (2, 0, 0), (2, 0, 1), (3, 0, 0), (3, 1, 3), (3, 2, 2), (3, 8, 1)] {
        for data in [&[0], used] {
            let array = [used, &payload(high, width, size, data), used].concat();
            arrays.extend((used.len()..array.len()).map(|n| array[..n].to_vec()));
        }
    }
    // A header that looks like a use, cut off in the same way, and whole.
    for (high, width, size) in [(1, 0, 0x1a), (2, 0, 0x1a), (3, 0x1a, 5)] {
        let array = [used, &payload(high, width, size, &[5, 0]), used].concat();
        arrays.extend((10..=14).map(|n| array[..n].to_vec()));
        arrays.push(array);
    }
    // The header says more than the file holds, or says 0; the greatest lengths would be a few units if they wrapped.
    let sizes = [0, 1, 0x100, 0x2_0000, 0x4000_0000, 0x7fff_ffff, 0x8000_0000, 0x8000_0001, 0xfffb_fffc, 0xfffe_ffff, 0xffff_fffe, 0xffff_ffff];
    let array_data = [0, 1, 2, 4, 8, 0x100, 0x8000, 65_535].iter().flat_map(|&width| sizes.map(|size| (3, width, size)));
    let switches = [1, 2].iter().flat_map(|&high| [0x3fff, 0x4000, 0x7fff, 0x8000, 65_535].map(|size| (high, 0, size)));
    for (high, width, size) in array_data.chain(switches.clone()) {
        arrays.push([used, &payload_header(high, width, size), &used.repeat(6)].concat());
    }
    // Long ones: a byte short, up to the file's end, and before a use.
    let array_data = [(1, 65_535), (255, 257), (256, 256), (65_535, 1), (65_535, 2), (65_535, 3)].map(|(width, size)| (3, width, size));
    for (high, width, size) in switches.chain(array_data) {
        let mut array = [used, &payload(high, width, size, &[0])].concat();
        array[12..16].copy_from_slice(used);
        arrays.push(array[..array.len() - 1].to_vec());
        arrays.push(array.clone());
        arrays.push([&array, used].concat());
    }
    // No payloads: another high byte, another low byte, and operands that look like a payload's first unit.
    let units = [0, 4, 0xff].map(|high| [0, high]);
    let units = units.into_iter().chain([0x01, 0x02, 0x0e, 0x12, 0x73, 0xff].iter().flat_map(|&low| [1, 2, 3].map(|high| [low, high])));
    for unit in units {
        for high in 1..=3 {
            let mut array = [used, &payload(high, 1, 2, &[0]), used].concat();
            array[4..6].copy_from_slice(&unit);
            arrays.push(array);
        }
    }
    for high in 1..=3 {
        arrays.push([&[0x1a, 0, 0, high, 0x1b, 0, 0, high, 0, high], used].concat());
    }
    arrays
}

/// One method, whose array has payloads, or units that look like one, among uses of index 5, and begins at any remainder by 4. The file ends
/// with the array; for the finder also with the array's last block. To locate are all offsets of a short array and some past its end, of a long
/// one those near both ends: rising, so that the walks are short, and falling, so that one goes over all. The end word is the array's end, or so
/// great that those past it are walked to as well.
pub fn payloads(op: u32) -> Vec<Case> {
    let kinds = if op == FIND { &USES[..] } else { &USES[..1] };
    let between = kinds.iter().flat_map(|&(used, kind)| between_uses(used).into_iter().map(move |array| (array, kind)));
    let mut cases = Vec::new();
    for (array, kind) in between.chain(other_payloads().into_iter().map(|array| (array, 1))) {
        let long = array.len() > 1000;
        for start in 64..if long { 65 } else { 68 } {
            let mut case = Case::new(op);
            case.file = vec![0; start];
            case.file.extend(&array);
            let (end, blocks) = (case.file.len() as u32, (case.file.len() / 16) as u32);
            if op == LOCATE {
                let entries: Vec<u32> = (63..end + 20).filter(|&at| at < 120 || at + 60 > end).collect();
                case.numbers[13] = 3;
                lent(&mut case, &[1, entries.len() as u32]);
                for end in [u32::MAX, end] {
                    case.lists = [vec![1; blocks as usize], vec![start as u32, end], vec![], entries.clone()];
                    cases.push(case.clone());
                    case.lists[3].reverse();
                    cases.push(case.clone());
                }
                continue;
            }
            case.file[24] = 32;
            case.file[32..39].copy_from_slice(&[0, 0, 1, 0, 0, 0, start as u8 - 16]);
            put(&mut case.file, start - 4, array.len() as u32 / 2);
            (case.numbers[9], case.numbers[11], case.numbers[13]) = (1, 1, kind);
            case.lists[0] = vec![5];
            case.lent = [2, 3, blocks, 0, 64, 64, 1, 64];
            cases.push(case.clone());
            case.file.resize(case.file.len().next_multiple_of(16), 0);
            cases.push(case);
        }
    }
    cases
}

/// Array data up to the end of a file of the greatest length, and an element more.
fn greatest_payload() -> [Case; 2] {
    let end = LARGEST as u32;
    [end - 24, end - 23].map(|size| {
        let mut case = Case::new(LOCATE);
        case.file = payload_header(3, 1, size);
        case.file.splice(..0, [0; 16]);
        case.file.resize(LARGEST, 0);
        case.numbers[13] = end / 16;
        case.lists = [vec![1], vec![16, u32::MAX], vec![], vec![end + 2, end, end + 2]];
        lent(&mut case, &[1, 3]);
        case
    })
}

/// Ends of arrays: pairs of start words made up, and arrays with uses after them.
pub fn array_ends(op: u32) -> Vec<Case> {
    let mut cases = if op == LOCATE { made_up_pairs() } else { uses_after_the_end(op) };
    cases.extend(codes_found(op));
    cases
}

/// Rising entries as they are, each twice, falling, and with both halves falling in turn, so that entries past an end stand between others.
fn in_orders(case: Case, cases: &mut Vec<Case>) {
    let rising = case.lists[3].clone();
    let twice = rising.iter().flat_map(|&at| [at, at]).collect();
    let falling: Vec<u32> = rising.iter().rev().copied().collect();
    let (high, low) = falling.split_at(falling.len() / 2);
    let in_turn = low.iter().zip(high).flat_map(|(&a, &b)| [a, b]).collect();
    for entries in [rising, twice, falling, in_turn] {
        let mut case = case.clone();
        case.lent[1] = entries.len() as u32;
        case.lists[3] = entries;
        cases.push(case);
    }
}

/// Instructions of one, two and three units from 64 to 112, and pairs of start words over them. To locate are all offsets there and some around.
fn made_up_pairs() -> Vec<Case> {
    let mut whole = Case::new(LOCATE);
    whole.file = vec![0; 64];
    while whole.file.len() < 112 {
        whole.file.extend([0, 0, 0x1a, 0, 5, 0, 0x1b, 0, 5, 0, 0, 0, 0x0e, 0, 0x12, 0]);
    }
    whole.numbers[13] = 4;
    whole.lists[3] = (62..114).collect();
    let mut cases = Vec::new();
    // One method: an end before the start, on it, within an instruction, between two, and past the file; 0 for either word.
    for start in [0, 64, 65, 66] {
        for end in (0..2).chain(62..114).chain([0x7fff_ffff, 0x8000_0000, u32::MAX]) {
            let mut case = whole.clone();
            (case.lists[0], case.lists[1]) = (vec![1; 3], vec![start, end]);
            case.lent[0] = 1;
            in_orders(case, &mut cases);
        }
    }
    // Two methods and shares of both: the pair of a share is that of its first method.
    let pairs = [[0, 0], [0, 90], [64, 0], [64, 70], [64, 73], [66, 96], [80, 90], [90, 80]];
    let share = 1 << 31;
    for (a, b) in pairs.iter().flat_map(|a| pairs.map(|b| (a, b))) {
        for slots in [[1, share, 2], [share, share + 1, share], [share + 1, 1, share]] {
            let mut case = whole.clone();
            case.lists[..3].clone_from_slice(&[slots.to_vec(), [*a, b].concat(), vec![1, 0, 0, 0, 1, 1]]);
            case.lent[0] = 2;
            in_orders(case, &mut cases);
        }
    }
    // Each number of start words up to three pairs, for each of the methods, and one further word too few, enough, or one more.
    for (words, method) in (0..=6).flat_map(|words| (0..3).map(move |method| (words, method))) {
        for further in words / 2..=words / 2 + 2 {
            let mut case = whole.clone();
            (case.lists[0], case.lists[1]) = (vec![0, method + 1, 0], [64, 80, 64, 96, 66, 90][..words].to_vec());
            case.lent[..2].copy_from_slice(&[further.saturating_sub(1) as u32, 64]);
            cases.push(case.clone());
            // No entry needs a pair.
            case.lists[0][1] = 0;
            cases.push(case);
        }
    }
    cases
}

/// One method, whose array is the first units, or all, of three uses of index 5: so uses stand after its end, which is between two of them or
/// within one. The file ends with a block.
fn uses_after_the_end(op: u32) -> Vec<Case> {
    let mut cases = Vec::new();
    for (code, (used, kind)) in (48..64).flat_map(|code| USES.map(|u| (code, u))) {
        let uses = used.repeat(3);
        for units in 1..=uses.len() / 2 {
            let mut case = Case::new(op);
            case.file = vec![0; code + 16];
            case.file[24] = 32;
            case.file[32..39].copy_from_slice(&[0, 0, 1, 0, 0, 0, code as u8]);
            put(&mut case.file, code + 12, units as u32);
            case.file.extend(&uses);
            case.file.resize(case.file.len().next_multiple_of(16), 0);
            (case.numbers[9], case.numbers[11]) = (1, 1);
            if op == FIND {
                (case.numbers[13], case.lists[0]) = (kind, vec![5]);
            }
            case.lent[..shape(op).1].fill(16);
            cases.push(case);
        }
    }
    cases
}

/// Two methods and three code items, uses of index 5 in each array and after it: every list of up to three of their codes, a class for each. So a
/// method may have code twice, and its pair is that of the code found last; and methods may share code. To locate are all offsets of the code.
fn codes_found(op: u32) -> Vec<Case> {
    const ITEMS: [(u8, u32); 3] = [(120, 2), (144, 3), (172, 4)];
    let mut file = vec![0; 120];
    file.extend([0x1a, 0, 5, 0].repeat(26));
    for (code, units) in ITEMS {
        put(&mut file, code as usize + 12, units);
    }
    let codes: Vec<(u8, u8)> = (0..2).flat_map(|method| ITEMS.map(|(code, _)| (method, code))).collect();
    let total = codes.len() + codes.len().pow(2) + codes.len().pow(3);
    let mut cases = Vec::new();
    for index in 1..=total {
        let found = Digits(index as u64).list(&codes, 3);
        let mut case = Case::new(CODE_TABLE);
        case.file = file.clone();
        for (i, &(method, code)) in found.iter().enumerate() {
            let data = 96 + 8 * i;
            case.file[32 * i + 24] = data as u8;
            case.file[data..data + 8].copy_from_slice(&[0, 0, 1, 0, method, 0, code | 0x80, code >> 7]);
        }
        (case.numbers[9], case.numbers[11]) = (2, found.len() as u32);
        lent(&mut case, &[4, 9, 5, 6]);
        match op {
            FIND => {
                (case.op, case.numbers[13], case.lists[0]) = (FIND, 1, vec![5]);
                case.lent[4..].copy_from_slice(&[32, 32, 2, 32]);
            }
            LOCATE => {
                let (numbers, table) = document::answer(&case).expect("a code table");
                let words = |i: usize| table[i].iter().map(|&w| w as u32).collect();
                let mut case = Case { op, file: case.file, lists: [words(2), words(0), words(3), (116..226).collect()], ..Case::default() };
                case.numbers[13] = numbers[0] as u32 / 16;
                case.lent[0] = 2;
                in_orders(case, &mut cases);
                continue;
            }
            _ => {}
        }
        cases.push(case);
    }
    cases
}

/// Instructions of one, two, three and five units, in this order: 2, 4, 6 and 10 bytes. Operands look like opcodes, or like nothing.
const LENGTHS: [u8; 22] = [0x12, 0, 0x13, 0x1a, 0, 5, 0x1b, 0x73, 5, 0, 0x12, 0, 0x18, 0, 0x12, 0x1a, 0x73, 0, 0, 0, 5, 0];

/// const/16. Where it stands again and again, a scan takes the byte after each opcode for a const-string, and no walk lands there.
pub const MISSED: [u8; 4] = [0x13, 0x1a, 0, 5];

/// Tables and a file for locate; the entries come after.
fn over(file: &[u8], base: u32, slots: &[u32], starts: &[u32], shares: &[u32]) -> Case {
    let mut case = Case::new(LOCATE);
    case.file = file.to_vec();
    case.numbers[13] = base;
    case.lists[..3].clone_from_slice(&[slots.to_vec(), starts.to_vec(), shares.to_vec()]);
    case.lent[0] = starts.len() as u32 / 2;
    case
}

/// A nondecreasing list as it is, each entry two and three times, and one after another once, twice and three times; then those that fall: the
/// whole list, each entry twice, the list and itself again, and with a single entry out of order, at the front, at the end or before its neighbour.
fn rising_and_falling(case: &Case, entries: &[u32], cases: &mut Vec<Case>) {
    let times = |n: &dyn Fn(usize) -> usize| entries.iter().enumerate().flat_map(|(i, &e)| vec![e; n(i)]).collect::<Vec<u32>>();
    let mut lists = vec![entries.to_vec(), times(&|_| 2), times(&|_| 3), times(&|i| 1 + i % 3)];
    lists.extend([times(&|_| 1), times(&|_| 2)].map(|list| list.into_iter().rev().collect::<Vec<u32>>()));
    lists.push(entries.repeat(2));
    for at in (0..entries.len()).step_by(1 + entries.len() / 3) {
        for to in [0, at + 1, entries.len()] {
            let mut list = entries.to_vec();
            let one = list.remove(at);
            list.insert(to.min(list.len()), one);
            lists.push(list);
        }
    }
    for list in lists {
        let mut case = case.clone();
        case.lent[1] = list.len() as u32;
        case.lists[3] = list;
        cases.push(case);
    }
}

/// Rising lists over a stretch of offsets: all, the even, the odd, and others with more misses or fewer.
fn some_of(from: u32, to: u32) -> Vec<Vec<u32>> {
    let all = || from..to;
    let mut rng = Rng::new(8, LOCATE, to as u64);
    let mut lists = vec![
        all().collect::<Vec<u32>>(),
        all().filter(|at| at % 2 == 0).collect(),
        // Misses, most of them, and then what may be a hit.
        all().filter(|at| at % 2 == 1 || at + 4 > to).collect(),
        all().filter(|at| at % 4 != 0).collect(),
        all().filter(|at| at % 16 < 2 || at % 16 == 15).collect(),
    ];
    lists.extend([2, 3, 6].map(|n| all().filter(|_| rng.one_in(n)).collect::<Vec<u32>>()));
    lists
}

/// Lists that a walk goes through from entry to entry: with misses between hits, in the middle of instructions and payloads; past a place that
/// there is no step from; around the ends of arrays; and of several methods in turn. Code begins at 64.
pub fn walks_that_go_on() -> Vec<Case> {
    let before = [0; 64];
    let share = 1 << 31;
    let mut arrays: Vec<Vec<u8>> = vec![LENGTHS.repeat(4), MISSED.repeat(16)];
    // A payload among instructions; its data are opcodes with a length.
    for (high, width, size) in [(1, 0, 2), (2, 0, 2), (3, 1, 3), (3, 2, 4), (3, 0, 9)] {
        arrays.push([&LENGTHS[..12], &payload(high, width, size, &[0x12]), &LENGTHS, &MISSED].concat());
    }
    // The walk gets stuck: at an opcode without length; at a payload that is cut, in its body or its header. Bytes follow, or none.
    let cut = [&[0, 1, 0xff, 0xff][..], &[0, 2, 0xff, 0x7f], &[0, 3, 1, 0, 0xff, 0xff, 0xff, 0xff], &[0, 3, 1], &[0, 1], &[0]];
    for stuck in [&[0x73, 0][..], &[0x3e, 0]].into_iter().chain(cut) {
        arrays.push([&LENGTHS[..12], stuck].concat());
        arrays.push([&LENGTHS[..12], stuck, &LENGTHS.repeat(2)].concat());
    }
    // The file ends within an instruction, so that the walk goes past its end.
    arrays.extend([9, 13, 15, 21].map(|n| [&LENGTHS[..], &LENGTHS[..n]].concat()));
    let mut cases = Vec::new();
    for array in &arrays {
        let file = [&before[..], array].concat();
        let (end, blocks) = (file.len() as u32, file.len().div_ceil(16) + 1 - 4);
        let in_turn = |words: &[u32]| words.iter().copied().cycle().take(blocks).collect::<Vec<u32>>();
        // One method, from its start, from a place within its first instruction, and from one where only some walks come by; with its end, with one
        // in the middle, and with none that matters.
        let one = [64, 65, 66, 70].iter().flat_map(|&start| [end, 90, u32::MAX].map(|end| (in_turn(&[1]), vec![start, end], vec![])));
        // Two and three methods, block by block, over the same bytes; some with no code, or with an end of their own. Two pairs of blocks in turn.
        let turns = [&[1, 2][..], &[2, 1], &[1, 2, 3], &[1, 0, 2], &[1, 1, 2, 2], &[3, 1, 3, 2]];
        let pairs = [[64, end, 64, end, 66, end], [64, end, 66, end, 65, end], [64, 82, 64, end, 0, 0], [76, end, 64, 100, 64, u32::MAX]];
        let several = turns.iter().flat_map(|turn| pairs.map(|pairs| (in_turn(turn), pairs.to_vec(), vec![])));
        // Shares whose first method is the same, and that method alone: they have one walk. And shares of two walks.
        let shares = [[0, 1, 0, 0, 2, 1, 0, 2, 0], [0, 1, 0, 1, 0, 0, 0, 2, 1]];
        let turns = [&[share, share + 1][..], &[1, share + 2, share], &[share + 1, 2, share]];
        let shared = turns.iter().flat_map(|turn| shares.map(|s| (in_turn(turn), vec![64, end, 66, end, 64, 90], s.to_vec())));
        for (slots, starts, shares) in one.chain(several).chain(shared) {
            let case = over(&file, 4, &slots, &starts, &shares);
            // From below the base to past the slots. All of these lists for one method, a few for several.
            for list in some_of(62, end + 20).iter().step_by(if starts.len() == 2 { 1 } else { 3 }) {
                rising_and_falling(&case, list, &mut cases);
            }
        }
    }
    cases.extend(far_entries());
    cases
}

/// Entries and starts at 0, at the file's end and past it, and near 2^32.
fn far_entries() -> Vec<Case> {
    let file = LENGTHS.repeat(3);
    let end = file.len() as u32;
    let mut cases = Vec::new();
    // The file's first block has a slot. A start of 0 is none; others are above some entries.
    for start in [0, 1, 2, 6, 12, 22, end - 2, end - 1, end, end + 1, end + 2, end + 15, 0x8000_0000, u32::MAX] {
        for stop in [0, 1, 30, end, end + 1, u32::MAX] {
            for slots in [vec![1; 6], [1, 2].repeat(3)] {
                let case = over(&file, 0, &slots, &[start, stop, 2, u32::MAX], &[]);
                for list in [vec![0, 2, 6, 12, 22, 24], (0..end + 20).step_by(3).collect(), (0..9).chain(end - 3..end + 6).collect()] {
                    rising_and_falling(&case, &list, &mut cases);
                }
            }
        }
    }
    // Slots that cover the greatest offsets, and some that none has. Only an entry on the start itself is landed on.
    let top = u32::MAX - 15;
    let entries: Vec<u32> = [0, 2, end, 0x7fff_ffff, 0x8000_0000].into_iter().chain(top - 18..=u32::MAX).collect();
    let last = top / 16;
    for (base, slots) in [(last, vec![1]), (last, vec![2, 1]), (last - 1, vec![1, 2]), (last - 1, vec![2, 2, 1]), (u32::MAX, vec![1])] {
        for start in [0, 2, end, top - 16, top - 1, top, top + 1, u32::MAX - 1, u32::MAX] {
            for stop in [end, top, top + 1, u32::MAX - 1, u32::MAX] {
                let case = over(&file, base, &slots, &[start, stop, top, u32::MAX], &[]);
                rising_and_falling(&case, &entries, &mut cases);
            }
        }
    }
    cases
}

/// One method whose array has uses of the indices 5, 6 and 7, and bytes within others that look like uses; every list of up to three of
/// these indices, some of them twice.
fn wanted_together() -> Vec<Case> {
    let mut cases = Vec::new();
    for (used, kind) in USES {
        let mut array = Vec::new();
        for index in [5, 6, 5, 7, 7, 6] {
            let at = array.len();
            array.extend(used);
            array[at + 2] = index;
            // Of five units; the use within it is none.
            array.extend([0x18, 0, used[0], used[1], index, 0, 0, 0, 0x12, 0]);
        }
        let mut case = Case::new(FIND);
        case.file = vec![0; 64];
        case.file[24] = 32;
        case.file[32..39].copy_from_slice(&[0, 0, 1, 0, 0, 0, 48]);
        put(&mut case.file, 60, array.len() as u32 / 2);
        case.file.extend(&array);
        let blocks = case.file.len().div_ceil(16) as u32 - 4;
        (case.numbers[9], case.numbers[11], case.numbers[13]) = (1, 1, kind);
        case.lent = [2, 3, blocks, 0, 16, 16, 1, 16];
        // As many bytes more as there are ways to split a list.
        for (wanted, more) in (0..40).map(|i| Digits(i).list(&[5, 6, 7], 3)).flat_map(|w| (0..3).map(move |more| (w.clone(), more))) {
            let mut case = case.clone();
            case.file.resize(case.file.len() + more, 0);
            case.lists[0] = wanted;
            cases.push(case);
        }
    }
    cases
}

/// const-string/jumbo with indices around powers of two, all of them wanted among many others, in falling order.
fn great_indices() -> Case {
    let mut case = Case::new(SCAN);
    let mut wanted: Vec<u32> = (0..5000).collect();
    for bits in [16, 20, 22, 31] {
        wanted.extend([-1i64, 0, 1].map(|d| ((1i64 << bits) + d) as u32));
    }
    wanted.push(u32::MAX);
    wanted.reverse();
    for &index in &wanted[..16] {
        case.file.extend([0x1b, 0]);
        case.file.extend(index.to_le_bytes());
    }
    case.numbers[13..].copy_from_slice(&[0, case.file.len() as u32, 1]);
    case.lists[0] = wanted;
    lent(&mut case, &[64, 64]);
    case
}

/// A file of a header, that many string ids and four texts: string i is `ab`, `Xyc` or `b` by the remainder of i by 3. The fourth text, 12 bytes
/// after the ids, is not ASCII.
pub fn file_of_names(count: u32) -> Vec<u8> {
    let mut file = vec![0; 0x70];
    put(&mut file, 0x38, count);
    put(&mut file, 0x3c, 0x70);
    let texts = 0x70 + 4 * count;
    file.extend((0..count).flat_map(|i| (texts + [0, 4, 9][i as usize % 3]).to_le_bytes()));
    file.extend(b"\x02ab\0\x03Xyc\0\x01b\0\x02a\x80\0");
    file
}

/// Name filters over many strings, of which one in three contains the query. Given are the indices around every border, and all of them;
/// and the same with an index too large, a text that is not ASCII, or data outside, among them.
fn many_names() -> Vec<Case> {
    const BORDERS: [u32; 6] = [4096, 8192, 65_536, 131_072, 262_144, 1_048_576];
    let mut cases = Vec::new();
    for count in BORDERS.iter().flat_map(|&b| [b - 1, b, b + 1]).chain([300_000]) {
        let mut case = Case::new(NAME_FILTER);
        case.file = file_of_names(count);
        let texts = 0x70 + 4 * count;
        case.query = b"Y".to_vec();
        let around = BORDERS.iter().chain([&0, &count]).flat_map(|&b| [b.wrapping_sub(1), b, b + 1]);
        let some: Vec<u32> = around.filter(|&i| i < count).rev().collect();
        let found = |list: &[u32]| list.iter().filter(|&&i| i % 3 == 1).collect::<std::collections::HashSet<_>>().len() as u32;
        let mut add = |given: &[u32], change: &dyn Fn(&mut Case)| {
            let mut case = case.clone();
            case.lists[0] = given.to_vec();
            case.lent[0] = found(given);
            change(&mut case);
            cases.push(case);
        };
        add(&some, &|_| {});
        add(&some, &|c| c.lent[0] -= 1);
        let again: Vec<u32> = some.iter().chain(&some).copied().collect();
        add(&again, &|c| c.lent[0] += 2);
        add(&again, &|c| c.lists[0].push(count));
        // The last string's text is not ASCII, or its data are outside.
        add(&some, &|c| put(&mut c.file, texts as usize - 4, texts + 12));
        add(&some, &|c| put(&mut c.file, texts as usize - 4, u32::MAX));
        let all: Vec<u32> = (0..count).rev().collect();
        if count <= 131_073 {
            add(&all, &|_| {});
        }
    }
    // A table that is the whole file, of the greatest length: each word is zero but the count, and so the data of each string is.
    let mut case = Case::new(NAME_FILTER);
    case.file = vec![0; LARGEST];
    let count = LARGEST as u32 / 4;
    put(&mut case.file, 0x38, count);
    case.lists[0] = vec![count - 1, 14, 0, count - 1, 15];
    case.lent[0] = 4;
    cases.push(case);
    cases
}

/// The small inputs that are counted through, by their number.
fn counted(op: u32, index: u64) -> Option<Case> {
    let mut d = Digits(index);
    let mut c = Case::new(op);
    match op {
        TYPE_GROUPS => {
            let keys = d.list(&[0u32, 1, 2, 3], 3);
            c.file = keys.iter().flat_map(|k| k.to_le_bytes()).collect();
            c.numbers[3] = (keys.len() + d.take(2)) as u32;
            c.numbers[1] = d.take(4) as u32;
            lent(&mut c, &[5 - d.take(5) as u32, 4 - d.take(4) as u32, 0, 0]);
        }
        METHOD_GROUPS => {
            let ids = d.list(&[(0u16, 0u32), (1, 0), (0, 1), (1, 1), (2, 2)], 2);
            for (class, name) in &ids {
                c.file.extend(class.to_le_bytes());
                c.file.extend([7, 7]);
                c.file.extend(name.to_le_bytes());
            }
            c.numbers[9] = (ids.len() + d.take(2)) as u32;
            (c.numbers[1], c.numbers[3]) = (d.take(3) as u32, d.take(3) as u32);
            lent(&mut c, &[3 - d.take(3) as u32, 2 - d.take(2) as u32, 3 - d.take(3) as u32, 2 - d.take(2) as u32]);
        }
        GROUP | TYPES_OF | CLZ_SLICE | NAME_SLICE => {
            c.lists[0] = d.list(&[0u32, 1, 2, 3, u32::MAX], 4);
            c.lists[1] = (5..5 + d.take(4) as u32).collect();
            c.numbers[13] = [0, 1, 2, 3, 4, u32::MAX - 1, u32::MAX][d.take(7)];
        }
        STRING_MAP => {
            let n = 1 + d.take(2);
            let text = d.list(&[0x00u8, 0x61, 0x7f, 0x80], 5);
            for _ in 0..n {
                let o = 4 * n as u32 + d.take(6) as u32;
                c.file.extend(o.to_le_bytes());
            }
            c.file.extend(text);
            c.numbers[1] = n as u32;
            c.lent[0] = 1 + d.take(3) as u32;
        }
        STRING_BYTES | STRING_DATA_BYTES => {
            c.file = d.list(&[0x00u8, 0x0f, 0x10, 0x7f, 0x80, 0xff], 6);
            c.numbers[13] = d.take(4) as u32;
        }
        STRING_SEARCH => {
            c.file = d.list(b"ab\0", 5);
            c.query = d.list(b"ab", 3);
            c.keys = d.list(&[0u64, 1, 1 << 32, 2 << 32 | 2, 4 << 32 | 1], 2);
            c.numbers[13] = d.take(2) as u32;
            c.numbers[14] = c.file.len() as u32;
            c.lent[0] = 2;
        }
        TYPE_SEARCH => {
            c.file = d.list(b"ab", 4);
            c.query = d.list(b"ab", 2);
            c.keys = vec![0, 1 << 32 | 1, 2 << 32 | 2];
            c.numbers[14] = c.file.len() as u32;
            c.lists[0] = d.list(&[0, 1, 2, 3], 4);
            c.lists[1] = vec![4, 2, 4];
            lent(&mut c, &[3, 2, 0, 0]);
        }
        METHOD_SEARCH => {
            // Every length lent for strings and types, with queries that have a match or none, before files of more than a few bytes.
            lent(&mut c, &[d.take(4) as u32, d.take(4) as u32, 2, 0]);
            c.query = d.list(b"abz", 1);
            c.second = d.list(b"abz", 1);
            let area = d.list(b"ab", 3);
            // Each string names a type; or the first one none.
            c.lists[0] = [vec![0, 1, 2, 3], vec![0, 0, 2, 3]][d.take(2)].clone();
            c.lists[1] = vec![1, 0, 2];
            for _ in 0..d.take(3) {
                c.file.extend([d.take(3) as u8, 0, 0, 0, d.take(3) as u8, 0, 0, 0]);
            }
            let from = c.file.len() as u32;
            (c.numbers[8], c.numbers[9]) = (0, from / 8);
            (c.numbers[13], c.numbers[14]) = (from, from + area.len() as u32);
            c.keys = (0..area.len() as u64).map(|i| (from as u64 + i) << 32 | i).collect();
            c.file.extend(area);
        }
        NAME_FILTER => {
            let text = d.list(&[b'a', b'B', b'b', 0x80], 4);
            c.query = d.list(b"aAb", 2);
            let tail = d.take(2);
            c.file = vec![0; 0x74];
            c.file[0x38] = 1;
            c.file[0x3c] = 0x70;
            c.file[0x70] = 0x74;
            c.file.push(text.len() as u8);
            c.file.extend(text);
            c.file.extend(&[0][..tail]);
            c.lists[0] = vec![0; d.take(3)];
            c.lent[0] = d.take(2) as u32;
        }
        CODE_TABLE => {
            // By the map, one class data item after it, of any six bytes; a code item at 48 of one unit.
            let data = d.list(&[0x00u8, 0x01, 0x02, 0x30, 0x80], 7);
            let mut file = vec![0xff, 1, 0, 0, 0, 0, 0x20, 0, 0, 1, 0, 0, 0, 17, 0, 0, 0];
            file.extend(data);
            if d.take(2) == 1 {
                file.resize(66, 0);
                file[60] = 1;
            }
            c.file = file;
            c.numbers[12] = 1;
            c.numbers[9] = 1 + d.take(2) as u32;
            lent(&mut c, &[4, 6, 1, 3]);
        }
        SCAN => {
            let kind = d.take(4);
            let alphabets: [&[u8]; 4] =
                [&[0x00, 0x05, 0x1a, 0x1b], &[0x00, 0x05, 0x22, 0x24], &[0x00, 0x05, 0x52, 0x6d], &[0x00, 0x05, 0x6e, 0xfa]];
            c.file = d.list(alphabets[kind], 6);
            c.numbers[15] = kind as u32 + 1;
            c.numbers[14] = c.file.len() as u32;
            c.numbers[13] = d.take(2) as u32;
            c.lists[0] = vec![0x505, 5];
            lent(&mut c, &[2, 2, 0, 0]);
        }
        LOCATE => {
            c.file = d.list(&[0x00u8, 0x02, 0x03, 0x73], 5);
            // Of the slot's first method, 0 or 1: no start word, one, or both.
            let slot = [0u32, 1, 2, 0x8000_0000][d.take(4)];
            c.lists[0] = vec![slot];
            c.lists[1] = [&[0, 0][..if slot < 2 { 0 } else { 2 }], &d.list(&[0u32, 1, 2, 5], 2)].concat();
            c.lists[2] = vec![1, 0, 0];
            c.lists[3] = vec![d.take(6) as u32, 4];
            lent(&mut c, &[2, 2, 0, 0]);
        }
        FIND => return None,
        LIST_SLOT => {
            for _ in 0..d.take(4) {
                c.lists[0].extend([7, 4, d.take(5) as u32]);
            }
            c.numbers[13] = [0, 1, 0x7fff_ffff, 0x8000_0000, 0x8000_0001, 0x8000_0002, 0x8000_0003, u32::MAX][d.take(8)];
            c.lent[0] = d.take(5) as u32;
        }
        _ => unreachable!(),
    }
    d.done(c)
}
