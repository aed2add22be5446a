//! A call of any operation, its outcome, and the form in which both are written to the replay list.

use std::fmt::Write;

/// The 13 operations, the four functions that hand back a part of a slice, and the finder, which is build, scan and locate in one. All but
/// the finder have this number in the replay list.
pub const OPS: [&str; 18] = [
    "type_groups", "method_groups", "group", "string_map", "string_bytes", "string_search", "type_search", "method_search",
    "name_filter", "code_table", "scan", "locate", "list_slot", "string_data_bytes", "types_of", "clz_slice", "name_slice", "find",
];

pub const TYPE_GROUPS: u32 = 1;
pub const METHOD_GROUPS: u32 = 2;
pub const GROUP: u32 = 3;
pub const STRING_MAP: u32 = 4;
pub const STRING_BYTES: u32 = 5;
pub const STRING_SEARCH: u32 = 6;
pub const TYPE_SEARCH: u32 = 7;
pub const METHOD_SEARCH: u32 = 8;
pub const NAME_FILTER: u32 = 9;
pub const CODE_TABLE: u32 = 10;
pub const SCAN: u32 = 11;
pub const LOCATE: u32 = 12;
pub const LIST_SLOT: u32 = 13;
pub const STRING_DATA_BYTES: u32 = 14;
pub const TYPES_OF: u32 = 15;
pub const CLZ_SLICE: u32 = 16;
pub const NAME_SLICE: u32 = 17;
pub const FIND: u32 = 18;

/// Whether a function hands back a part of a slice. C has no form for it: the program `replay` calls it, and writes the part's length and
/// the part.
pub fn hands_back_part(op: u32) -> bool {
    (STRING_DATA_BYTES..=NAME_SLICE).contains(&op)
}

/// Whether the program `replay` takes a case.
pub fn replay_takes(case: &Case) -> bool {
    case.op != FIND
        && case.file.len() <= 4096
        && case.query.len() <= 512
        && case.second.len() <= 512
        && case.keys.len() <= 512
        && case.lists.iter().all(|l| l.len() <= 512)
        && case.lent.iter().all(|&n| n <= 1024)
        && case.high == 0
}

/// What every lent word holds before a call; a lent key holds it twice.
pub const LENT: u32 = 0xa5a5_a5a5;

/// The largest file (SPEC, Conventions).
pub const LARGEST: usize = 16_777_216;

/// The numbers 0 to 12 are the header record, 13 to 15 the operation's scalars. `lists` are the interface's const word slices in their
/// order, `lent` the lengths of its lent slices, of which only the finder has more than four.
#[derive(Clone, Default, PartialEq, Debug)]
pub struct Case {
    pub op: u32,
    pub numbers: [u32; 16],
    /// The upper half of string bytes' offset; not written to the replay list, where it is 0.
    pub high: u32,
    pub file: Vec<u8>,
    pub query: Vec<u8>,
    pub second: Vec<u8>,
    pub keys: Vec<u64>,
    pub lists: [Vec<u32>; 4],
    pub lent: [u32; 8],
}

/// A pair (offset, size) of the header record.
#[derive(Clone, Copy, Debug)]
pub struct Table {
    pub off: u32,
    pub size: u32,
}

impl Case {
    pub fn new(op: u32) -> Self {
        Case { op, ..Case::default() }
    }

    fn table(&self, i: usize) -> Table {
        Table { off: self.numbers[2 * i], size: self.numbers[2 * i + 1] }
    }
    pub fn strings(&self) -> Table {
        self.table(0)
    }
    pub fn types(&self) -> Table {
        self.table(1)
    }
    pub fn methods(&self) -> Table {
        self.table(4)
    }
    pub fn classes(&self) -> Table {
        self.table(5)
    }
    pub fn mapoff(&self) -> u32 {
        self.numbers[12]
    }
    /// The operation's scalars.
    pub fn scalar(&self, i: usize) -> u32 {
        self.numbers[13 + i]
    }
    /// String bytes' offset, which has 64 bits.
    pub fn offset(&self) -> usize {
        (self.high as usize) << 32 | self.scalar(0) as usize
    }
    pub fn lent(&self, i: usize) -> usize {
        self.lent[i] as usize
    }

    pub fn write(&self, out: &mut Vec<u8>) {
        let word = |out: &mut Vec<u8>, x: u32| out.extend(x.to_le_bytes());
        word(out, self.op);
        self.numbers.iter().for_each(|&x| word(out, x));
        for bytes in [&self.file, &self.query, &self.second] {
            word(out, bytes.len() as u32);
            out.extend(bytes);
        }
        word(out, self.keys.len() as u32);
        self.keys.iter().for_each(|k| out.extend(k.to_le_bytes()));
        for list in &self.lists {
            word(out, list.len() as u32);
            list.iter().for_each(|&x| word(out, x));
        }
        self.lent[..4].iter().for_each(|&x| word(out, x));
    }

    /// For a report: only what is not empty or zero.
    pub fn describe(&self) -> String {
        let hex = |b: &[u8]| b.iter().map(|x| format!("{x:02x}")).collect::<Vec<_>>().join(" ");
        let mut s = format!("{} numbers {:?}", OPS[self.op as usize - 1], self.numbers);
        if self.high != 0 {
            write!(s, " high {}", self.high).unwrap();
        }
        write!(s, "\n  file ({} bytes) {}", self.file.len(), hex(&self.file[..self.file.len().min(2000)])).unwrap();
        for (name, b) in [("query", &self.query), ("second", &self.second)] {
            if !b.is_empty() {
                write!(s, "\n  {name} {}", hex(b)).unwrap();
            }
        }
        if !self.keys.is_empty() {
            write!(s, "\n  keys {:x?}", self.keys).unwrap();
        }
        for (i, l) in self.lists.iter().enumerate().filter(|(_, l)| !l.is_empty()) {
            write!(s, "\n  list {i} {l:?}").unwrap();
        }
        write!(s, "\n  lent {:?}", self.lent).unwrap();
        s
    }
}

/// The refusal's number (0 for success), the out numbers and the lent slices, both in the interface's order.
#[derive(Clone, PartialEq, Debug)]
pub struct Outcome {
    pub refusal: u32,
    pub numbers: Vec<u64>,
    pub outs: Vec<Vec<u64>>,
}

/// How many out numbers and lent slices an operation has.
pub fn shape(op: u32) -> (usize, usize) {
    match op {
        TYPE_GROUPS => (1, 2),
        METHOD_GROUPS => (2, 4),
        GROUP => (2, 0),
        STRING_MAP => (3, 1),
        STRING_BYTES => (2, 0),
        STRING_SEARCH => (1, 1),
        TYPE_SEARCH => (1, 2),
        METHOD_SEARCH => (1, 3),
        NAME_FILTER => (1, 1),
        CODE_TABLE => (5, 4),
        SCAN => (1, 2),
        LOCATE => (1, 2),
        LIST_SLOT => (1, 1),
        // The part itself stands for what is lent: nothing is.
        STRING_DATA_BYTES | TYPES_OF | CLZ_SLICE | NAME_SLICE => (1, 1),
        FIND => (3, 8),
        _ => unreachable!(),
    }
}

impl Outcome {
    /// A refusal: the numbers are 0 and every lent word is zero.
    pub fn refused(case: &Case, refusal: u32) -> Self {
        let (numbers, outs) = shape(case.op);
        Outcome {
            refusal,
            numbers: vec![0; numbers],
            outs: (0..outs).map(|i| vec![0; case.lent(i)]).collect(),
        }
    }

    /// A success: each list, and zeros after it up to the words lent. A list that doesn't fit stays as it is, and so differs.
    pub fn done(case: &Case, numbers: &[usize], lists: Vec<Vec<u64>>) -> Self {
        let (n, outs) = shape(case.op);
        assert!(numbers.len() == n && lists.len() == outs);
        let mut outs = lists;
        for (i, list) in outs.iter_mut().enumerate() {
            list.resize(case.lent(i).max(list.len()), 0);
        }
        Outcome { refusal: 0, numbers: numbers.iter().map(|&n| n as u64).collect(), outs }
    }

    /// The line of the replayed output: each lent slice up to its last word that is not zero.
    pub fn line(&self, op: u32) -> String {
        let mut s = format!("{op} {}", self.refusal);
        self.numbers.iter().for_each(|n| write!(s, " {n}").unwrap());
        for out in &self.outs {
            s.push_str(" |");
            let used = out.iter().rposition(|&w| w != 0).map_or(0, |i| i + 1);
            out[..used].iter().for_each(|w| write!(s, " {w}").unwrap());
        }
        s
    }
}

pub fn wide(list: &[u32]) -> Vec<u64> {
    list.iter().map(|&x| x as u64).collect()
}
