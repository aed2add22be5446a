//! The inputs of docs/DIFFERENCES.md, run on both sides: a line for each, and exit status 1 where one does otherwise than is said there.
//! Called by `../../../run --differences`.

use sides::case::*;
use sides::synth::{leb, put};
use sides::{document, ours, silence, theirs};

/// What the Rust does.
#[derive(PartialEq)]
enum Rust {
    Panics,
    /// The same answer as ours, in the lent form.
    Same,
    /// An answer, where ours refuses or has another.
    Answers,
}
use Rust::*;

/// Calls with something set.
fn with(op: u32, set: impl FnOnce(&mut Case)) -> Case {
    let mut case = Case::new(op);
    set(&mut case);
    case
}

/// One class definition at 0, its class data at 32: the bytes given; a file of n bytes, a method, and plenty lent.
fn class_data(n: usize, data: &[u8]) -> Case {
    with(CODE_TABLE, |c| {
        c.file = vec![0; n];
        c.file[24] = 32;
        c.file[32..32 + data.len()].copy_from_slice(data);
        (c.numbers[9], c.numbers[11]) = (1, 1);
        c.lent[..4].fill(9);
    })
}

/// One direct method with code at 44, its array at 60, of that many units; a file of n bytes.
fn code(n: usize, units: u8) -> Case {
    let mut case = class_data(n, &[0, 0, 1, 0, 0, 0, 44]);
    case.file[56] = units;
    case
}

/// The text `a` alone, string 0, and the query `a`.
fn search(op: u32, keys: &[u64]) -> Case {
    with(op, |c| {
        c.file = b"a".to_vec();
        c.query = b"a".to_vec();
        c.keys = keys.to_vec();
        c.numbers[14] = 1;
        c.lent[..shape(op).1].fill(9);
        if op != STRING_SEARCH {
            (c.lists[0], c.lists[1]) = (vec![0, 1], vec![0]);
        }
    })
}

/// A header and one string, of these bytes.
fn names(text: &[u8], query: &str) -> Case {
    with(NAME_FILTER, |c| {
        c.file = vec![0; 0x74];
        put(&mut c.file, 0x38, 1);
        put(&mut c.file, 0x3c, 0x70);
        put(&mut c.file, 0x70, 0x74);
        leb(&mut c.file, text.len() as u64);
        c.file.extend(text);
        c.file.push(0);
        c.query = query.into();
        c.lists[0] = vec![0];
        c.lent[0] = 9;
    })
}

/// Entries of one method in this file, whose start words are these.
fn array(file: &[u8], starts: &[u32], entries: &[u32]) -> Case {
    with(LOCATE, |c| {
        c.file = file.to_vec();
        c.lists = [vec![1], starts.to_vec(), vec![], entries.to_vec()];
        c.lent[..2].copy_from_slice(&[1, entries.len() as u32]);
    })
}

/// One method whose walk begins at 2 in this file, and one entry before its end.
fn walk(file: &[u8], entry: u32) -> Case {
    array(file, &[2, entry + 2], &[entry])
}

fn main() {
    silence();
    let table = |op: u32, at: usize, set: fn(&mut Case)| {
        with(op, |c| {
            c.numbers[at] = 1;
            c.lent[..shape(op).1].fill(9);
            set(c);
        })
    };
    let rows: Vec<(&str, Rust, u32, Case)> = vec![
        ("any operation, a file of 16,777,217 bytes", Answers, 1, table(TYPE_GROUPS, 1, |c| c.file = vec![0; LARGEST + 1])),
        ("any operation with lent slices, one too short", Answers, 4, with(TYPE_GROUPS, |_| {})),
        ("groups, an id in an empty file", Panics, 3, table(TYPE_GROUPS, 3, |_| {})),
        ("groups, a key that equals the pool size", Panics, 0, table(TYPE_GROUPS, 3, |c| c.file = vec![0; 4])),
        ("one group, offsets 1, 0", Panics, 0, with(GROUP, |c| c.lists[0] = vec![1, 0])),
        ("string map, an id in an empty file", Answers, 3, table(STRING_MAP, 1, |_| {})),
        ("string map, a data offset outside", Answers, 5, table(STRING_MAP, 1, |c| c.file = vec![4, 0, 0, 0])),
        ("string map, no final zero", Answers, 5, table(STRING_MAP, 1, |c| c.file = vec![4, 0, 0, 0, 0])),
        ("string search, the empty query", Answers, 9, Case { query: vec![], ..search(STRING_SEARCH, &[0]) }),
        ("string search, a query of 256 bytes", Answers, 9, Case { query: vec![0; 256], ..search(STRING_SEARCH, &[]) }),
        ("string search, keys 0, 0", Answers, 15, search(STRING_SEARCH, &[0, 0])),
        ("string search, the key of index 4,294,967,295", Answers, 15, search(STRING_SEARCH, &[0xffff_ffff])),
        ("type search, the empty query and keys 0, 0", Answers, 15, Case { query: vec![], ..search(TYPE_SEARCH, &[0, 0]) }),
        ("method search, a method id in a file of one byte", Panics, 3, {
            let mut c = search(METHOD_SEARCH, &[0]);
            c.numbers[9] = 1;
            c
        }),
        ("method search, the same and a class without a match", Answers, 3, {
            let mut c = search(METHOD_SEARCH, &[0]);
            c.numbers[9] = 1;
            c.query = b"z".to_vec();
            c
        }),
        ("name filter, a query of 256 bytes", Answers, 9, names(b"", &"a".repeat(256))),
        ("name filter, a query that is not ASCII", Answers, 9, names(b"", "\u{e4}")),
        ("name filter, a text that is not ASCII", Answers, 11, names(&[0x80], "a")),
        ("code table, a class definition of 27 bytes", Panics, 3, table(CODE_TABLE, 11, |c| c.file = vec![0; 27])),
        ("code table, a method's flags 80 80 80 80 10", Answers, 16, class_data(48, &[0, 0, 1, 0, 0, 128, 128, 128, 128, 16, 0])),
        ("code table, a field's number of six bytes", Answers, 16, class_data(48, &[1, 0, 0, 0, 128, 128, 128, 128, 128, 0, 0])),
        ("code table, class data of one byte", Panics, 6, class_data(33, &[0])),
        ("code table, a method index that is not below the count", Panics, 7, class_data(60, &[0, 0, 1, 0, 1, 0, 44])),
        ("code table, a method index of 16,777,216", Answers, 7, {
            let mut c = code(62, 1);
            c.file[32..42].copy_from_slice(&[0, 0, 1, 0, 0x80, 0x80, 0x80, 0x08, 0, 44]);
            c.numbers[9] = 16_777_217;
            c.lent[0] = 2 * 16_777_217;
            c
        }),
        ("code table, an index sum of 2^32", Answers, 7, class_data(46, &[0, 0, 2, 0, 255, 255, 255, 255, 15, 0, 0, 1, 0, 0])),
        ("code table, a code item's header outside", Panics, 8, class_data(59, &[0, 0, 1, 0, 0, 0, 44])),
        ("code table, insns_size 0", Answers, 8, code(60, 0)),
        ("code table, an array past the end", Answers, 8, code(60, 1)),
        ("scan, kind 0", Answers, 2, with(SCAN, |_| {})),
        ("scan, a region backward", Panics, 12, with(SCAN, |c| c.numbers[13..].copy_from_slice(&[1, 0, 1]))),
        ("scan, a region past the end", Panics, 12, with(SCAN, |c| c.numbers[13..].copy_from_slice(&[0, 1, 1]))),
        ("code table, a last block that is not inside", Answers, 0, code(62, 1)),
        ("build and scan, the same", Panics, 0, {
            let mut c = Case { op: FIND, lent: [9; 8], ..code(62, 1) };
            c.numbers[13] = 1;
            c
        }),
        ("build and scan, a last block that is inside", Same, 0, {
            let mut c = Case { op: FIND, lent: [9; 8], ..code(64, 1) };
            c.numbers[13] = 1;
            c
        }),
        ("locate, no further word", Answers, 4, with(LOCATE, |c| c.lists[1] = vec![0, 0])),
        ("locate, a share outside", Panics, 15, with(LOCATE, |c| (c.lists[0], c.lists[3], c.lent[1]) = (vec![1 << 31], vec![0], 1))),
        ("locate, a first method without start words", Panics, 15, array(&[], &[], &[0])),
        ("locate, an entry at the end of its array", Answers, 0, array(&[0; 6], &[2, 4], &[4])),
        ("locate, the same and then one in the array", Answers, 0, array(&[0; 6], &[2, 4], &[4, 2])),
        ("locate, an entry within a payload", Answers, 0, walk(&[0, 0, 0, 2, 0, 0], 4)),
        ("locate, an entry after a payload", Answers, 0, walk(&[0, 0, 0, 3, 0x73, 0, 0, 0, 0, 0], 10)),
        ("locate, an entry after the header of a payload that is not inside", Answers, 0, walk(&[0, 0, 0, 2, 1, 0], 6)),
    ];
    let n = rows.len();
    for (name, rust, refusal, case) in rows {
        let (ours, answer) = (ours::answer(&case), theirs::answer(&case));
        check(ours.refusal == refusal && ours == document::verdict(&case), format!("{name}: ours {}", short(case.op, &ours)));
        let does = match &answer {
            None => Panics,
            Some(a) if *a == ours => Same,
            Some(_) => Answers,
        };
        let said = answer.map_or("panics".to_owned(), |a| short(case.op, &a));
        check(does == rust, format!("{name}: the Rust {said}"));
        println!("{name}: the Rust {said}; ours {}", short(case.op, &ours));
    }
    println!("{n} inputs, each as docs/DIFFERENCES.md says");
}

fn check(holds: bool, what: String) {
    if !holds {
        println!("OTHERWISE than docs/DIFFERENCES.md says: {what}");
        std::process::exit(1);
    }
}

/// The refusal, or the out numbers; of locate the answers.
fn short(op: u32, outcome: &Outcome) -> String {
    match outcome.refusal {
        0 if op == LOCATE => format!("answers {:?}", outcome.outs[1]),
        0 => format!("answers {:?}", outcome.numbers),
        n => format!("refuses {n}"),
    }
}
