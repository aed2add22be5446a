//! The benchmarks: each operation, ours and the Rust in one process on the same input. Called by ../../../bench, which says how.
//!   bench time FILE [PART..]   medians of interleaved runs, as a table
//!   bench list FILE [PART..]   the items' names
//!   bench once FILE [PART..]   each item, ours and then the Rust, once inside the function `measured`: for callgrind
//!   bench uses FILE KIND INDEX the uses of an index, as a whole process of ours
//!   bench misses [MOST_BYTES]  lists of misses alone, over files of up to that many bytes, as a table and what it shows
//! With parts, only the items whose name has one of them.

use sides::case::*;
use sides::inputs::{file_of_names, MISSED};
use sides::ours::{self, Buffers};
use sides::synth::{leb, put, Dex};
use sides::theirs;
use source::asc_core::findrefs::locator::insn_locator::InsnLocator;
use source::asc_core::findrefs::locator::{method_locator, string_locator, type_locator};
use source::asc_core::findrefs::scan::code_item_scan::{self, CodeItemScanner};
use source::asc_core::utils::tinydex::DEX;
use std::collections::{HashMap, HashSet};
use std::hint::black_box;
use std::time::Instant;

type Side = Box<dyn FnMut() -> usize>;

/// Both sides give the number of what they found, which must agree. `lent` counts the words that ours is lent, and so clears.
struct Item {
    name: String,
    lent: usize,
    ours: Side,
    rust: Side,
}

fn leak<T>(x: T) -> &'static T {
    Box::leak(Box::new(x))
}

/// A successful call of ours that lends what it needs, found by lending plenty first.
fn fitted(mut case: Case, number: usize) -> (Side, usize, Buffers) {
    let (_, outs) = shape(case.op);
    case.lent[..outs].fill(1 << 20);
    let answer = ours::answer(&case);
    assert_eq!(answer.refusal, 0, "{}", OPS[case.op as usize - 1]);
    for i in 0..outs {
        case.lent[i] = answer.outs[i].iter().rposition(|&w| w != 0).map_or(0, |n| n + 1) as u32;
    }
    match case.op {
        TYPE_GROUPS => case.lent[0] = case.strings().size + 1,
        METHOD_GROUPS => (case.lent[0], case.lent[2]) = (case.types().size + 1, case.strings().size + 1),
        CODE_TABLE => case.lent[0] = 2 * case.methods().size,
        // The strings and types in between: as many as there are.
        TYPE_SEARCH => case.lent[0] = case.keys.len() as u32,
        METHOD_SEARCH => (case.lent[0], case.lent[1]) = (case.keys.len() as u32, case.lists[1].len() as u32),
        SCAN => case.lent[..2].fill(answer.numbers[0] as u32),
        LOCATE => (case.lent[0], case.lent[1]) = (case.lists[1].len() as u32 / 2, case.lists[3].len() as u32),
        _ => {}
    }
    let mut filled = Buffers::of(&case);
    ours::call(&case, &mut filled);
    assert_eq!(filled.refusal, 0);
    let mut lent = Buffers::of(&case);
    let words = case.lent.iter().map(|&n| n as usize).sum();
    let side = Box::new(move || {
        ours::call(black_box(&case), &mut lent);
        lent.numbers[number]
    });
    (side, words, filled)
}

fn items(file: Vec<u8>) -> Vec<Item> {
    let d = Dex::of_file(file);
    let dex: &'static DEX = leak(theirs::dex_of(&d.case(CODE_TABLE)));
    let buf: &'static [u8] = &dex.buf;
    let mut items = Vec::new();
    let mut add = |name: &str, ours: Side, lent: usize, rust: Side| items.push(Item { name: name.into(), lent, ours, rust });

    // ---- groups
    let (ours, lent, types) = fitted(d.case(TYPE_GROUPS), 0);
    add("type groups", ours, lent, Box::new(move || {
        let mut l = type_locator::TypeLocator::new(dex);
        l._build_map();
        black_box(type_locator::access::tables(&l)).1.len()
    }));
    let (ours, lent, _) = fitted(d.case(METHOD_GROUPS), 0);
    add("method groups", ours, lent, Box::new(move || {
        let mut l = method_locator::MethodLocator::new(dex);
        l._build_map();
        black_box(method_locator::access::tables(&l))[1].len()
    }));
    let (str_offsets, type_idxs) = (types.outs[0].clone(), types.outs[1].clone());
    let type_locator = leak(type_locator::access::with_tables(dex, str_offsets.clone(), type_idxs.clone()));
    let n = d.numbers[1];
    let (o, i) = (str_offsets.clone(), type_idxs.clone());
    add(
        "one group, for every string",
        Box::new(move || (0..n).map(|k| ours::group(&o, &i, black_box(k)).1).sum()),
        0,
        Box::new(move || (0..n).map(|k| black_box(type_locator::access::types_of(type_locator, black_box(k))).len()).sum()),
    );

    // ---- strings
    let (ours, lent, map) = fitted(d.case(STRING_MAP), 0);
    let (keys, start, end) = (map.keys.clone(), map.numbers[1] as u32, map.numbers[2] as u32);
    add("string map", ours, lent, Box::new(move || {
        let mut l = string_locator::StringLocator::new(dex);
        l._build_map();
        black_box(&l.stridx_map).len()
    }));
    let offsets: &'static [usize] = leak(keys.iter().map(|k| (k >> 32) as usize).collect::<Vec<_>>());
    add(
        "string bytes, of every string",
        Box::new(move || offsets.iter().map(|&o| ours::string_bytes(buf, black_box(o)).2).sum()),
        0,
        Box::new(move || offsets.iter().map(|&o| string_locator::access::string_data_bytes(buf, black_box(o)).unwrap().len()).sum()),
    );
    let search = |op: u32, query: &[u8], second: &[u8]| {
        let mut case = d.case(op);
        case.keys = keys.clone();
        (case.numbers[13], case.numbers[14]) = (start, end);
        (case.query, case.second) = (query.to_vec(), second.to_vec());
        if op != STRING_SEARCH {
            (case.lists[0], case.lists[1]) = (str_offsets.clone(), type_idxs.clone());
        }
        case
    };
    let strings = leak(theirs::string_locator(&search(STRING_SEARCH, b"", b""), dex));
    for query in ["http://", "Exception", "e"] {
        let (ours, lent, _) = fitted(search(STRING_SEARCH, query.as_bytes(), b""), 0);
        add(&format!("string search, `{query}`"), ours, lent, Box::new(move || strings.locate(black_box(query)).len()));
    }
    for n in [10_000, 100_000, 1_000_000] {
        let case = falling(n);
        let dex: &'static DEX = leak(theirs::dex_of(&case));
        let strings = leak(theirs::string_locator(&case, dex));
        let (ours, lent, _) = fitted(case, 0);
        add(&format!("string search, data in falling order, {n} strings"), ours, lent, Box::new(move || strings.locate(black_box("a")).len()));
    }
    let (ours, lent, _) = fitted(search(TYPE_SEARCH, b"Exception", b""), 0);
    add("type search, `Exception`", ours, lent, Box::new(move || type_locator.locate(black_box("Exception"), strings).len()));
    let (ours, lent, _) = fitted(search(METHOD_SEARCH, b"Exception", b"get"), 0);
    let find = theirs::find_of(b"Exception", b"get");
    add("method search, `Exception`, `get`", ours, lent, Box::new(move || {
        method_locator::MethodLocator::new(dex).locate(black_box(&find), strings, type_locator).len()
    }));
    let names: Vec<u32> = (0..d.numbers[9] as usize)
        .map(|m| u32::from_le_bytes(buf[d.numbers[8] as usize + 8 * m + 4..][..4].try_into().unwrap()))
        .collect();
    let mut case = d.case(NAME_FILTER);
    (case.query, case.lists[0]) = (b"get".to_vec(), names.clone());
    let (ours, lent, _) = fitted(case, 0);
    add("name filter, `get`, every method's name", ours, lent, Box::new(move || {
        string_locator::access::locate_name_indices(buf, black_box(&names), "get").unwrap().len()
    }));

    // A small file and large ones, made up: ours takes tables by the number of strings.
    for count in [300, 100_000, 300_000] {
        let mut case = Case::new(NAME_FILTER);
        case.file = file_of_names(count);
        (case.query, case.lists[0]) = (b"q".to_vec(), (0..count).collect());
        let (file, given) = (leak(case.file.clone()), case.lists[0].clone());
        let (ours, lent, _) = fitted(case, 0);
        add(&format!("name filter without a hit, all of {count} strings"), ours, lent, Box::new(move || {
            string_locator::access::locate_name_indices(file, black_box(&given), "q").unwrap().len()
        }));
    }

    // ---- code
    let (ours, lent, table) = fitted(d.case(CODE_TABLE), 2);
    add("code table", ours, lent, Box::new(move || {
        let mut l = InsnLocator::new(dex);
        l.parse();
        black_box(&l.insn_maps);
        l.method_bounds.iter().filter(|&&w| w != 0).count()
    }));
    let [starts, _, slots, shares] = &table.outs;
    let (from, to) = (table.numbers[0] as u32, (table.numbers[1]).min(buf.len()) as u32);
    let indices = |kind: u32| most_used(buf, from, to, kind);
    let scan = |buf: &[u8], from: u32, to: u32, kind: u32, wanted: &[u32]| {
        let mut case = Case::new(SCAN);
        case.file = buf.to_vec();
        (case.numbers[13], case.numbers[14], case.numbers[15]) = (from, to, kind);
        case.lists[0] = wanted.to_vec();
        case
    };
    let rust_scan = |dex: &'static DEX, from: u32, to: u32, kind: u32, wanted: &[u32]| -> Side {
        let mut l = InsnLocator::new(dex);
        (l.code_item_start, l.code_item_end) = (from, to);
        let l = leak(l);
        let wanted: HashSet<u32> = wanted.iter().copied().collect();
        Box::new(move || {
            let mut s = CodeItemScanner::new(l);
            code_item_scan::access::scan(&mut s, theirs::kind_name(kind), black_box(&wanted)).len()
        })
    };
    for kind in 1..=4 {
        let wanted = &indices(kind)[..1];
        let (ours, lent, _) = fitted(scan(buf, from, to, kind, wanted), 0);
        add(&format!("scan, {}, 1 wanted", theirs::kind_name(kind)), ours, lent, rust_scan(dex, from, to, kind, wanted));
    }
    // Three MiB of code: the file's own, one copy after another.
    let code = &buf[from as usize..to as usize / 2 * 2];
    let long: Vec<u8> = code.iter().copied().cycle().take(3 << 20).collect();
    let mut case = Case::new(SCAN);
    case.file = long.clone();
    let long_dex: &'static DEX = leak(theirs::dex_of(&case));
    for n in [1, 16] {
        let wanted = &indices(3)[..n];
        let (ours, lent, _) = fitted(scan(&long, 0, 3 << 20, 3, wanted), 0);
        add(&format!("scan of 3 MiB, field, {n} wanted"), ours, lent, rust_scan(long_dex, 0, 3 << 20, 3, wanted));
    }
    // The first 32 KiB of it.
    let wanted = &indices(1)[..1];
    let end = from + 32768.min(to - from);
    let (ours, lent, _) = fitted(scan(buf, from, end, 1, wanted), 0);
    add("scan of 32 KiB, string, 1 wanted", ours, lent, rust_scan(dex, from, end, 1, wanted));
    // const-string/jumbo, one for each of that many strings, all wanted.
    for n in [10_000, 80_000] {
        let mut case = Case::new(SCAN);
        case.file = (0..n).flat_map(|i: u32| [[0x1b, 0].to_vec(), i.to_le_bytes().to_vec()].concat()).collect();
        let (file, end, wanted) = (case.file.clone(), 6 * n, (0..n).collect::<Vec<u32>>());
        let jumbo_dex: &'static DEX = leak(theirs::dex_of(&case));
        let (ours, lent, _) = fitted(scan(&file, 0, end, 1, &wanted), 0);
        add(&format!("scan, string, {n} wanted and used"), ours, lent, rust_scan(jumbo_dex, 0, end, 1, &wanted));
    }
    for kind in [1, 4] {
        let wanted = &indices(kind)[..16];
        let hits = ours::answer(&generous(scan(buf, from, to, kind, wanted)));
        let entries: Vec<u32> = hits.outs[0][..hits.numbers[0] as usize].iter().map(|&w| w as u32).collect();
        let mut case = Case::new(LOCATE);
        case.file = buf.to_vec();
        case.numbers[13] = from / 16;
        case.lists = [slots.clone(), starts.clone(), shares.clone(), entries.clone()];
        let (ours, lent, _) = fitted(case, 0);
        let mut l = theirs::insn_locator(dex, from / 16, slots, starts, shares);
        let name = format!("locate, {} {} hits", entries.len(), theirs::kind_name(kind));
        add(&name, ours, lent, Box::new(move || l.locate(black_box(&entries)).len()));
    }
    // The Rust lists a slot in `locate`, by these words. Ours is lent as many words as the list has.
    let used: Vec<u32> = slots.iter().copied().filter(|&s| s != 0).collect();
    let lists = theirs::shared_of(shares);
    let asked: Vec<(u32, usize)> =
        used.iter().map(|&s| (s, if s < 1 << 31 { 1 } else { lists[(s - (1 << 31)) as usize].len() })).collect();
    let lent = asked.iter().map(|&(_, n)| n).sum();
    let (shares2, mut methods) = (shares.clone(), vec![0; asked.iter().map(|&(_, n)| n).max().unwrap_or(0)]);
    add(
        "listing, of every slot",
        Box::new(move || asked.iter().map(|&(slot, n)| ours::list_slot(&shares2, black_box(slot), &mut methods[..n]).1).sum()),
        lent,
        Box::new(move || {
            let list = |slot: u32| if slot < 1 << 31 { vec![slot - 1] } else { lists[(slot - (1 << 31)) as usize].clone() };
            used.iter().map(|&slot| black_box(list(black_box(slot))).len()).sum()
        }),
    );

    // ---- all in one
    for kind in [1, 4] {
        let wanted = indices(kind)[..1].to_vec();
        let lens = [starts.len(), table.outs[1].len(), slots.len(), shares.len(), 4096, 4096, starts.len() / 2, 4096];
        let mut lent = lens.map(|n| vec![0u32; n]);
        let header = d.numbers;
        let w = wanted.clone();
        add(
            &format!("build, scan and locate, {}, 1 wanted", theirs::kind_name(kind)),
            Box::new(move || {
                let (refusal, out) = ours::find(buf, &header, kind, black_box(&w), &mut lent);
                assert_eq!(refusal, 0);
                out[2]
            }),
            lens.iter().sum(),
            Box::new(move || {
                let mut l = InsnLocator::new(dex);
                l.parse();
                let mut s = CodeItemScanner::new(&l);
                let mut asked = HashMap::from([(theirs::kind_name(kind).to_owned(), vec![Some(wanted.clone())])]);
                s.scan(&mut asked, true, &mut l);
                asked.into_values().next().unwrap().len()
            }),
        );
    }
    items
}

/// A search that finds each of n strings, whose data lie in falling order of their indices: after the string ids, three bytes each.
fn falling(n: u32) -> Case {
    let mut case = Case::new(STRING_SEARCH);
    let data = |index: u32| 4 * n + 3 * (n - 1 - index);
    case.file = (0..n).flat_map(|index| data(index).to_le_bytes()).chain((0..n).flat_map(|_| [1, b'a', 0])).collect();
    case.numbers[1] = n;
    (case.numbers[13], case.numbers[14]) = (4 * n, 7 * n);
    case.keys = (0..n).rev().map(|index| (data(index) as u64) << 32 | index as u64).collect();
    case.query = b"a".to_vec();
    case
}

fn generous(mut case: Case) -> Case {
    case.lent = [1 << 18; 8];
    case
}

/// The indices of a kind that stand most often after its opcodes.
fn most_used(buf: &[u8], from: u32, to: u32, kind: u32) -> Vec<u32> {
    let mut case = Case::new(SCAN);
    case.file = buf.to_vec();
    (case.numbers[13], case.numbers[14], case.numbers[15]) = (from, to, kind);
    case.lists[0] = (1..65536).collect();
    let answer = ours::answer(&generous(case));
    let mut uses: HashMap<u32, u32> = HashMap::new();
    for &m in &answer.outs[1][..answer.numbers[0] as usize] {
        *uses.entry(m as u32).or_default() += 1;
    }
    let mut list: Vec<(u32, u32)> = uses.into_iter().map(|(i, n)| (n, i)).collect();
    list.sort_by(|a, b| b.cmp(a));
    list.into_iter().map(|(_, i)| i).collect()
}

fn median(mut times: Vec<f64>) -> f64 {
    times.sort_by(f64::total_cmp);
    times[times.len() / 2]
}

/// Microseconds of one run, medians: the two sides in turn, that many runs at once that the clock doesn't matter.
fn time(item: &mut Item) -> (f64, f64) {
    let runs = |side: &mut Side, n: usize| {
        let t = Instant::now();
        for _ in 0..n {
            black_box(side());
        }
        t.elapsed().as_secs_f64() * 1e6 / n as f64
    };
    let n = ((2000.0 / runs(&mut item.ours, 1).max(runs(&mut item.rust, 1))).ceil() as usize).clamp(1, 10_000);
    let (mut ours, mut rust) = (Vec::new(), Vec::new());
    for round in 0..41 {
        if round % 2 == 0 {
            ours.push(runs(&mut item.ours, n));
            rust.push(runs(&mut item.rust, n));
        } else {
            rust.push(runs(&mut item.rust, n));
            ours.push(runs(&mut item.ours, n));
        }
    }
    (median(ours), median(rust))
}

/// The index that a scan finds within each of the instructions `MISSED`, at their second byte.
const MISSED_INDEX: u32 = 0x1305;

/// Where the array of `missed` begins: with a block.
const ARRAY: usize = 192;

/// A file with one method, whose array is n bytes of `MISSED`. By class definition: the method's id at 0x70, the class at 0x78, its data at 0x98.
fn missed(n: usize) -> Dex {
    let mut file = vec![0; ARRAY];
    for (at, word) in [(0x58, 1), (0x5c, 0x70), (0x60, 1), (0x64, 0x78), (0x78 + 24, 0x98), (ARRAY - 4, n as u32 / 2)] {
        put(&mut file, at, word);
    }
    let mut data = Vec::new();
    [0, 0, 1, 0, 0, 0, ARRAY as u64 - 16].iter().for_each(|&x| leb(&mut data, x));
    file[0x98..0x98 + data.len()].copy_from_slice(&data);
    file.extend(MISSED.iter().cycle().take(n));
    Dex::of_file(file)
}

/// A search in which nothing is confirmed. Both sides give how many entries are.
struct Misses {
    name: &'static str,
    entries: usize,
    ours: Side,
    rust: Side,
}

/// The finder and locate over what its build returns, and locate over tables of two methods whose blocks are in turn. One of them starts
/// with the array, the other one unit later.
fn misses_of(n: usize) -> Vec<Misses> {
    let d = missed(n);
    let dex: &'static DEX = leak(theirs::dex_of(&d.case(CODE_TABLE)));
    let (buf, header): (&'static [u8], _) = (&dex.buf, d.numbers);
    let (blocks, hits, wanted) = (n.div_ceil(16), n / MISSED.len() - 1, [MISSED_INDEX]);
    // Tables and entries by build and scan alone: locate may take long, and is measured only.
    let ask = |mut case: Case, lent: &[usize]| {
        case.lent.iter_mut().zip(lent).for_each(|(to, &n)| *to = n as u32);
        let mut filled = Buffers::of(&case);
        ours::call(&case, &mut filled);
        assert_eq!(filled.refusal, 0);
        filled
    };
    let table = ask(d.case(CODE_TABLE), &[2, 3, blocks, 0]);
    let [starts, _, slots, _] = table.outs;
    let mut scan = d.case(SCAN);
    scan.numbers[13..].copy_from_slice(&[table.numbers[0] as u32, table.numbers[1] as u32, 1]);
    scan.lists[0] = wanted.to_vec();
    let scanned = ask(scan, &[hits, hits]);
    assert_eq!((&table.numbers[..2], scanned.numbers[0]), (&[ARRAY, buf.len()][..], hits));
    let [entries, ..] = scanned.outs;
    assert!(entries.iter().zip(0..).all(|(&e, k)| e as usize == ARRAY + 1 + MISSED.len() * k));
    let mut lent = [2, 3, blocks, 0, hits, hits, 1, hits].map(|n| vec![0u32; n]);
    let confirmed = |answers: &[u32]| answers.iter().filter(|&&w| w != 0).count();
    let finder = Misses {
        name: "finder, one method",
        entries: hits,
        ours: Box::new(move || {
            assert_eq!(ours::find(buf, &header, 1, black_box(&wanted), &mut lent).0, 0);
            confirmed(&lent[7])
        }),
        rust: Box::new(move || {
            let mut l = InsnLocator::new(dex);
            l.parse();
            let mut s = CodeItemScanner::new(&l);
            let mut asked = HashMap::from([("string".to_owned(), vec![Some(wanted.to_vec())])]);
            s.scan(&mut asked, true, &mut l);
            asked["string"].iter().flatten().count()
        }),
    };
    let located = |name: &'static str, slots: Vec<u32>, starts: Vec<u32>| {
        let mut case = Case::new(LOCATE);
        case.file = buf.to_vec();
        case.numbers[13] = (ARRAY / 16) as u32;
        case.lent[..2].copy_from_slice(&[starts.len() as u32 / 2, hits as u32]);
        let mut rust = theirs::insn_locator(dex, case.numbers[13], &slots, &starts, &[]);
        let given = entries.clone();
        case.lists = [slots, starts, vec![], entries.clone()];
        let mut lent = Buffers::of(&case);
        Misses {
            name,
            entries: hits,
            ours: Box::new(move || {
                ours::call(black_box(&case), &mut lent);
                assert_eq!(lent.refusal, 0);
                confirmed(&lent.outs[1])
            }),
            rust: Box::new(move || rust.locate(black_box(&given)).iter().flatten().count()),
        }
    };
    let (start, end) = (ARRAY as u32, buf.len() as u32);
    let in_turn = [1, 2].into_iter().cycle().take(blocks).collect();
    vec![
        finder,
        located("locate, one method", slots, starts),
        located("locate, two methods, block by block", in_turn, vec![start, end, start + 2, end]),
    ]
}

/// Seconds of a run, the median of nine, of three where one takes above a fifth of a second, and the only one where it takes above five.
/// Nothing may be confirmed.
fn seconds(side: &mut Side) -> f64 {
    let mut run = || {
        let t = Instant::now();
        assert_eq!(black_box(side()), 0);
        t.elapsed().as_secs_f64()
    };
    let first = run();
    let more = if first > 5.0 { 0 } else if first > 0.2 { 2 } else { 8 };
    median([first].into_iter().chain((0..more).map(|_| run())).collect())
}

/// A side is not run where it would take longer than that, in seconds, if its time grew by the square of the size.
const LONGEST: f64 = 20.0;

/// The table, search by search, and below it what a byte takes at the sizes that were run.
fn misses(most: usize) {
    let sizes = [64 << 10, 256 << 10, 1 << 20, LARGEST - ARRAY];
    let mut rows: [Vec<String>; 3] = Default::default();
    // Of each search and side the sizes that were run, and the seconds.
    let mut times: [[Vec<(f64, f64)>; 2]; 3] = Default::default();
    for n in sizes.into_iter().filter(|&n| n <= most) {
        for (search, mut item) in misses_of(n).into_iter().enumerate() {
            let mut row = format!("| {} | {n} | {} |", item.name, item.entries);
            for (side, run) in [&mut item.ours, &mut item.rust].into_iter().enumerate() {
                let before = &mut times[search][side];
                if before.last().is_some_and(|(m, t)| t * (n as f64 / m).powi(2) > LONGEST) {
                    row += " not run | |";
                    continue;
                }
                let t = seconds(run);
                before.push((n as f64, t));
                row += &format!(" {:.3} | {:.2} |", t * 1e3, t * 1e9 / n as f64);
            }
            rows[search].push(row);
        }
    }
    println!("| search | bytes of the array | entries | ours | ns a byte | the Rust | ns a byte |");
    println!("|---|---:|---:|---:|---:|---:|---:|");
    rows.iter().flatten().for_each(|row| println!("{row}"));
    println!();
    for (side, name) in ["Ours", "The Rust"].into_iter().enumerate() {
        let of_side = || times.iter().map(|sides| &sides[side]);
        let a_byte: Vec<f64> = of_side().flatten().map(|(n, t)| t * 1e9 / n).collect();
        let growth = of_side().flat_map(|list| list.windows(2)).map(|w| (w[1].1 / w[1].0) / (w[0].1 / w[0].0)).reduce(f64::max);
        let of = |f: fn(f64, f64) -> f64| a_byte.iter().copied().reduce(f).unwrap_or_default();
        let grows = growth.map_or(String::new(), |g| format!(", from one size to the next at most {g:.1} times as much"));
        println!("{name}: {:.2} to {:.2} ns a byte{grows}.", of(f64::min), of(f64::max));
    }
}

#[no_mangle]
#[inline(never)]
fn measured(side: &mut Side) -> usize {
    black_box(side())
}

fn uses(file: &str, kind: &str, index: u32) {
    let kind = (1..=4).find(|&k| theirs::kind_name(k) == kind).expect("kind");
    let d = Dex::of_file(std::fs::read(file).expect(file));
    let methods = d.numbers[9] as usize;
    let blocks = d.file.len() / 16 + 1;
    let mut lent = [2 * methods, 3 * methods, blocks, 3 * methods, 65536, 65536, methods, 65536].map(|n| vec![0u32; n]);
    let (refusal, out) = ours::find(&d.file, &d.numbers, kind, &[index], &mut lent);
    assert_eq!(refusal, 0);
    let mut list = vec![0; methods];
    for i in 0..out[2] {
        let slot = lent[7][i];
        if slot != 0 {
            let n = ours::list_slot(&lent[3], slot, &mut list).1;
            let mids: Vec<String> = list[..n].iter().map(u32::to_string).collect();
            println!("off={} idx={} mids={}", lent[4][i], lent[5][i], mids.join(","));
        }
    }
}

fn main() {
    let args: Vec<String> = std::env::args().skip(1).collect();
    let args: Vec<&str> = args.iter().map(String::as_str).collect();
    let load = |file: &str, parts: &[&str]| {
        let mut items = items(std::fs::read(file).expect(file));
        items.retain(|item| parts.is_empty() || parts.iter().any(|p| item.name.contains(p)));
        items
    };
    match args[..] {
        ["time", file, ref parts @ ..] => {
            println!("| operation | ours | the Rust | ours / Rust | words lent, cleared by ours |");
            println!("|---|---:|---:|---:|---:|");
            for mut item in load(file, parts) {
                let (a, b) = ((item.ours)(), (item.rust)());
                assert_eq!(a, b, "{}", item.name);
                let (ours, rust) = time(&mut item);
                println!("| {} | {ours:.1} | {rust:.1} | {:.2} | {} |", item.name, ours / rust, item.lent);
            }
        }
        ["list", file, ref parts @ ..] => load(file, parts).iter().for_each(|item| println!("{}", item.name)),
        ["once", file, ref parts @ ..] => {
            for mut item in load(file, parts) {
                assert_eq!(measured(&mut item.ours), measured(&mut item.rust));
            }
        }
        ["uses", file, kind, index] => uses(file, kind, index.parse().expect("index")),
        ["misses"] => misses(LARGEST),
        ["misses", most] => misses(most.parse().expect("bytes")),
        _ => panic!("usage: bench time|list|once|uses FILE .., or bench misses [MOST_BYTES]"),
    }
}
