//! The Rust's answer to a case, turned into the lent form: sets as rising lists, zeros after each list, shares as three words. `None`
//! where it panics. It must not be asked where `document::verdict` refuses by a number that is off the domain, nor where `hostile`.

use crate::case::*;
use crate::document;
use source::asc_core::findrefs::locator::{insn_locator::InsnLocator, method_locator, string_locator, type_locator};
use source::asc_core::findrefs::scan::code_item_scan;
use source::asc_core::utils::tinydex::{DEXHeader, DEX};
use std::collections::{HashMap, HashSet};
use std::panic::{catch_unwind, AssertUnwindSafe};
use std::rc::Rc;

/// Sizes from which the Rust would allocate in a call that SPEC refuses: it does so before it holds them against the file.
pub fn hostile(case: &Case) -> bool {
    let sizes: &[u32] = match case.op {
        TYPE_GROUPS | STRING_MAP => &[case.strings().size],
        METHOD_GROUPS => &[case.strings().size, case.types().size],
        CODE_TABLE | FIND => &[case.methods().size],
        _ => &[],
    };
    sizes.iter().any(|&n| n > 100_000)
}

pub fn answer(case: &Case) -> Option<Outcome> {
    catch_unwind(AssertUnwindSafe(|| run(case))).ok()
}

/// The record and file as the Rust's: `DEX::from_vec` reads a header, so it is given an empty one, and file and record are set after.
pub fn dex_of(case: &Case) -> DEX {
    let pair = |i: usize| (case.numbers[2 * i], case.numbers[2 * i + 1]);
    let mut dex = DEX::from_vec(vec![0; 0x70], "");
    dex.buf = Rc::new(case.file.clone());
    dex.header = DEXHeader {
        strings: pair(0),
        types: pair(1),
        prototypes: pair(2),
        fields: pair(3),
        methods: pair(4),
        classes: pair(5),
        mapoff: case.numbers[12],
    };
    dex
}

/// A query as the text that the Rust's functions ask for.
pub fn text(query: &[u8]) -> &str {
    // SAFETY: on the paths that are run the source asks a query only whether it is empty and for its bytes; the name filter, which
    // changes case, is run for ASCII alone.
    unsafe { std::str::from_utf8_unchecked(query) }
}

pub fn kind_name(kind: u32) -> &'static str {
    ["", "string", "type", "field", "method"].get(kind as usize).unwrap_or(&"")
}

pub fn string_locator<'a>(case: &Case, dex: &'a DEX) -> string_locator::StringLocator<'a> {
    let mut l = string_locator::StringLocator::new(dex);
    l.stridx_map = case.keys.clone();
    l.strdata_start = case.scalar(0);
    l.strdata_end = case.scalar(1);
    l.parsed = true;
    l
}

pub fn find_of(class: &[u8], name: &[u8]) -> method_locator::MethodFind {
    method_locator::MethodFind::new(Some((text(class).to_owned(), false)), Some(text(name).to_owned()))
}

fn rising(set: HashSet<u32>) -> Vec<u64> {
    let mut list: Vec<u64> = set.into_iter().map(u64::from).collect();
    list.sort();
    list
}

/// The refusal's number for an error message.
fn number(message: &str) -> u32 {
    match message {
        "invalid DEX header" | "DEX string table overflow" | "DEX string table outside input" => 3,
        "unterminated DEX string" => 5,
        "truncated DEX string length" => 6,
        "DEX string length overflow" => 10,
        "DEX string index out of range" => 13,
        other => unreachable!("{other}"),
    }
}

/// Where a part of a slice begins in it.
fn place<T>(part: &[T], whole: &[T]) -> usize {
    (part.as_ptr() as usize - whole.as_ptr() as usize) / size_of::<T>()
}

/// The shares as the Rust keeps them. Where a chain is broken, only the first method is kept: locate needs no more.
pub fn shared_of(shares: &[u32]) -> Vec<Vec<u32>> {
    (0..shares.len() / 3).map(|k| document::share_list(shares, k).map_or(vec![shares[3 * k]], |mut l| {
        l[0] = shares[3 * k];
        l
    })).collect()
}

fn run(case: &Case) -> Outcome {
    let dex = dex_of(case);
    match case.op {
        TYPE_GROUPS => {
            let mut l = type_locator::TypeLocator::new(&dex);
            l._build_map();
            let (offsets, ids) = type_locator::access::tables(&l);
            Outcome::done(case, &[ids.len()], vec![wide(offsets), wide(ids)])
        }
        METHOD_GROUPS => {
            let mut l = method_locator::MethodLocator::new(&dex);
            l._build_map();
            let t = method_locator::access::tables(&l);
            Outcome::done(case, &[t[1].len(), t[3].len()], t.map(wide).into())
        }
        GROUP => group(case, &dex),
        STRING_MAP => {
            let mut l = string_locator::StringLocator::new(&dex);
            l._build_map();
            Outcome::done(case, &[l.stridx_map.len(), l.strdata_start as usize, l.strdata_end as usize], vec![l.stridx_map])
        }
        STRING_BYTES => match string_locator::access::string_data_bytes(&case.file, case.offset()) {
            Ok(text) => Outcome::done(case, &[place(text, &case.file), text.len()], vec![]),
            Err(message) => Outcome::refused(case, number(&message)),
        },
        STRING_DATA_BYTES => {
            let part = string_locator::access::string_data_bytes(&case.file, case.offset()).unwrap_or_default();
            Outcome::done(case, &[part.len()], vec![part.iter().map(|&b| b as u64).collect()])
        }
        TYPES_OF | CLZ_SLICE | NAME_SLICE => {
            let (offsets, ids, key) = (case.lists[0].clone(), case.lists[1].clone(), case.scalar(0));
            let types = type_locator::access::with_tables(&dex, offsets.clone(), ids.clone());
            let methods = method_locator::access::with_tables(&dex, offsets, ids);
            let part = match case.op {
                TYPES_OF => type_locator::access::types_of(&types, key),
                CLZ_SLICE => method_locator::access::clz_slice(&methods, key),
                _ => method_locator::access::name_slice(&methods, key),
            };
            Outcome::done(case, &[part.len()], vec![wide(part)])
        }
        STRING_SEARCH => {
            let found = rising(string_locator(case, &dex).locate(text(&case.query)));
            Outcome::done(case, &[found.len()], vec![found])
        }
        TYPE_SEARCH => {
            let types = type_locator::access::with_tables(&dex, case.lists[0].clone(), case.lists[1].clone());
            let found = rising(types.locate(text(&case.query), &string_locator(case, &dex)));
            Outcome::done(case, &[found.len()], vec![vec![], found])
        }
        METHOD_SEARCH => {
            let types = type_locator::access::with_tables(&dex, case.lists[0].clone(), case.lists[1].clone());
            let methods = method_locator::MethodLocator::new(&dex);
            let found = rising(methods.locate(&find_of(&case.query, &case.second), &string_locator(case, &dex), &types));
            Outcome::done(case, &[found.len()], vec![vec![], vec![], found])
        }
        NAME_FILTER => match string_locator::access::locate_name_indices(&case.file, &case.lists[0], text(&case.query)) {
            Ok(found) => {
                let found = rising(found);
                Outcome::done(case, &[found.len()], vec![found])
            }
            Err(message) => Outcome::refused(case, number(&message)),
        },
        CODE_TABLE => code_table(case, &dex),
        SCAN => {
            let mut l = InsnLocator::new(&dex);
            (l.code_item_start, l.code_item_end) = (case.scalar(0), case.scalar(1));
            let mut scanner = code_item_scan::CodeItemScanner::new(&l);
            let wanted: HashSet<u32> = case.lists[0].iter().copied().collect();
            let offs = code_item_scan::access::scan(&mut scanner, kind_name(case.scalar(2)), &wanted);
            Outcome::done(case, &[offs.len()], vec![wide(&offs), wide(&scanner.mark_idx)])
        }
        LOCATE => locate(case, &dex),
        LIST_SLOT => list_slot(case, &dex),
        FIND => find(case, &dex),
        _ => unreachable!(),
    }
}

/// All three slice requests, which must agree.
fn group(case: &Case, dex: &DEX) -> Outcome {
    let (offsets, ids, key) = (&case.lists[0], &case.lists[1], case.scalar(0));
    let t = type_locator::access::with_tables(dex, offsets.clone(), ids.clone());
    let m = method_locator::access::with_tables(dex, offsets.clone(), ids.clone());
    let [_, clz_ids, _, name_ids] = method_locator::access::tables(&m);
    let type_ids = type_locator::access::tables(&t).1;
    let parts = [
        (type_locator::access::types_of(&t, key), type_ids),
        (method_locator::access::clz_slice(&m, key), clz_ids),
        (method_locator::access::name_slice(&m, key), name_ids),
    ];
    // The empty stretch for a key outside is no part of the ids: it begins at 0, as ours.
    let spans = parts.map(|(p, ids)| {
        let within = key as usize + 1 < offsets.len();
        (if within { place(p, ids) } else { 0 }, p.len())
    });
    assert!(spans.iter().all(|s| *s == spans[0]));
    Outcome::done(case, &[spans[0].0, spans[0].1], vec![])
}

/// The triples are cleared by `parse`, so that they are taken from a walk of their own. The earlier share of a share is not in the Rust's
/// vectors: it is the one whose list stood in the start slot, which the triples tell; the words are then held against the lists. Nor are the
/// ends of arrays: each is made of the Rust's start, before which the array's size stands.
fn code_table(case: &Case, dex: &DEX) -> Outcome {
    let mut walk = InsnLocator::new(dex);
    walk._build_map_bymap();
    let found = walk.insn_maps_build;
    let mut l = InsnLocator::new(dex);
    l.parse();

    let base = l.insn_bucket_base;
    let mut before = vec![0u32; l.insn_maps.len()];
    let mut shares: Vec<u32> = Vec::new();
    for &(first, last, method) in &found {
        let old = before[(first - base) as usize];
        let word = if old == 0 {
            method + 1
        } else {
            let list = &l.insn_shared[shares.len() / 3];
            let earlier = if old < 1 << 31 { 0 } else { old - (1 << 31) + 1 };
            shares.extend([list[0], list[list.len() - 1], earlier]);
            (1 << 31) + (shares.len() / 3 - 1) as u32
        };
        before[(first - base) as usize..=(last - base) as usize].fill(word);
    }
    assert_eq!(before, l.insn_maps, "slots");
    assert_eq!(shared_of(&shares), l.insn_shared, "shares");

    let end = |start: u32| {
        let size = start.checked_sub(4).and_then(|at| case.file.get(at as usize..at as usize + 4));
        size.map_or(0, |b| start.wrapping_add(u32::from_le_bytes(b.try_into().unwrap()).wrapping_mul(2)))
    };
    let starts: Vec<u32> = l.method_bounds.iter().flat_map(|&start| [start, end(start)]).collect();
    let triples: Vec<u64> = found.iter().flat_map(|&(a, e, m)| [a as u64, e as u64, m as u64]).collect();
    Outcome::done(
        case,
        &[l.code_item_start as usize, l.code_item_end as usize, found.len(), l.insn_maps.len(), shares.len()],
        vec![wide(&starts), triples, wide(&l.insn_maps), wide(&shares)],
    )
}

/// Of the pairs of start words, the Rust is given the starts.
pub fn insn_locator<'a>(dex: &'a DEX, base: u32, slots: &[u32], starts: &[u32], shares: &[u32]) -> InsnLocator<'a> {
    let mut l = InsnLocator::new(dex);
    l.parsed = true;
    l.insn_maps = slots.to_vec();
    l.insn_bucket_base = base;
    l.method_bounds = starts.chunks_exact(2).map(|pair| pair[0]).collect();
    l.max_midx = l.method_bounds.len().saturating_sub(1);
    l.insn_shared = shared_of(shares);
    l
}

/// An answer of locate or of the finder, without the entries that the Rust confirms at or past the end of their slot's first method: it has no
/// ends. It also walks on from such an entry. In a nondecreasing list every later entry of that method is at or past the end too, and so is left
/// out; of other lists this would not be the answer that SPEC has.
pub fn within_ends(case: &Case, mut answer: Outcome) -> Outcome {
    let words = |list: &[u64]| list.iter().map(|&w| w as u32).collect::<Vec<u32>>();
    let (starts, shares, entries, answers) = match case.op {
        LOCATE => (case.lists[1].clone(), case.lists[2].clone(), case.lists[3].clone(), 1),
        FIND => (words(&answer.outs[0]), words(&answer.outs[3]), words(&answer.outs[4]), 7),
        _ => return answer,
    };
    for (word, &off) in answer.outs[answers].iter_mut().zip(&entries).filter(|(word, _)| **word != 0) {
        let slot = *word as u32;
        let first = if slot < 1 << 31 { slot - 1 } else { shares[3 * (slot - (1 << 31)) as usize] };
        if starts.get(2 * first as usize + 1).is_some_and(|&end| off >= end) {
            *word = 0;
        }
    }
    answer
}

/// A confirmed entry's answer is its slot word: the Rust's list must be the one that this word stands for.
fn locate(case: &Case, dex: &DEX) -> Outcome {
    let [slots, starts, shares, entries] = &case.lists;
    let mut l = insn_locator(dex, case.scalar(0), slots, starts, shares);
    let answers = l.locate(entries);
    let words = answers.iter().zip(entries).map(|(answer, off)| match answer {
        None => 0,
        Some(list) => {
            let slot = slots[(off / 16 - case.scalar(0)) as usize];
            let meant = if slot < 1 << 31 { vec![slot - 1] } else { l.insn_shared[(slot - (1 << 31)) as usize].clone() };
            assert_eq!(*list, meant);
            slot as u64
        }
    });
    Outcome::done(case, &[entries.len()], vec![vec![], words.collect()])
}

/// The Rust lists a slot where it confirms an entry: so the slot is the only one, and the entry stands at its first method's start.
fn list_slot(case: &Case, dex: &DEX) -> Outcome {
    let (shares, slot) = (&case.lists[0], case.scalar(0));
    let shared: Vec<Vec<u32>> = (0..shares.len() / 3).map(|k| document::share_list(shares, k).unwrap_or_default()).collect();
    let first = match slot {
        0 => 0,
        s if s < 1 << 31 => s - 1,
        s => shared[(s - (1 << 31)) as usize][0],
    } as usize;
    assert!(first < 1 << 20, "more words than the Rust is given here");
    let mut l = insn_locator(dex, 1, &[slot], &vec![16; 2 * (first + 1)], &[]);
    l.insn_shared = shared;
    let list = l.locate(&[16]).remove(0).unwrap_or_default();
    Outcome::done(case, &[list.len()], vec![wide(&list)])
}

/// The scanner's own `scan`, which locates its hits; offsets and marks are taken from a scan of their own.
fn find(case: &Case, dex: &DEX) -> Outcome {
    let mut outs = code_table(&Case { op: CODE_TABLE, ..case.clone() }, dex).outs;
    let mut l = InsnLocator::new(dex);
    l.parse();
    let kind = kind_name(case.scalar(0));
    let mut scanner = code_item_scan::CodeItemScanner::new(&l);
    let offs = code_item_scan::access::scan(&mut scanner, kind, &case.lists[0].iter().copied().collect());
    let marks = scanner.mark_idx.clone();
    let mut asked = HashMap::from([(kind.to_owned(), vec![Some(case.lists[0].clone())])]);
    scanner.scan(&mut asked, true, &mut l);
    let answers = &asked[kind];
    assert_eq!(answers.len(), offs.len());
    let words = answers.iter().zip(&offs).map(|(answer, off)| match answer {
        None => 0,
        Some(list) => {
            let slot = l.insn_maps[(off / 16 - l.insn_bucket_base) as usize];
            let meant = if slot < 1 << 31 { vec![slot - 1] } else { l.insn_shared[(slot - (1 << 31)) as usize].clone() };
            assert_eq!(*list, meant);
            slot as u64
        }
    });
    outs.extend([wide(&offs), wide(&marks), vec![], words.collect()]);
    Outcome::done(case, &[l.code_item_start as usize, l.code_item_end as usize, offs.len()], outs)
}
