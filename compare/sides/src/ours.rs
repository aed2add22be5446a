//! Ours: the functions of the static library (include/ringlinden.h), and a case's answer by them; and the lines of the program `replay` for
//! the functions that C has no form for.

use crate::case::*;
use std::process::{Command, Stdio};

macro_rules! interface {
    ($($name:ident($($arg:ident: $ty:ty),* $(,)?);)*) => {
        extern "C" { $(pub fn $name($($arg: $ty),*) -> u32;)* }
    };
}

type B = *const u8;
type W = *const u32;
type K = *const u64;
type M = *mut u32;
type N = *mut usize;

interface! {
    ringlinden_type_groups(file: B, n: usize, header: W, o: M, on: usize, t: M, tn: usize, count: N);
    ringlinden_method_groups(file: B, n: usize, header: W, a: M, an: usize, b: M, bn: usize, c: M, cn: usize, d: M, dn: usize,
        clz_count: N, name_count: N);
    ringlinden_group(offsets: W, on: usize, ids: W, idn: usize, key: u32, start: N, count: N);
    ringlinden_string_map(file: B, n: usize, header: W, keys: *mut u64, kn: usize, count: N, start: N, end: N);
    ringlinden_string_bytes(file: B, n: usize, offset: usize, start: N, count: N);
    ringlinden_string_search(file: B, n: usize, keys: K, kn: usize, start: usize, end: usize, query: B, qn: usize, out: M, outn: usize,
        count: N);
    ringlinden_type_search(file: B, n: usize, keys: K, kn: usize, start: usize, end: usize, query: B, qn: usize, offs: W, offn: usize,
        ids: W, idn: usize, strings: M, sn: usize, out: M, outn: usize, count: N);
    ringlinden_method_search(file: B, n: usize, header: W, keys: K, kn: usize, start: usize, end: usize, class: B, classn: usize,
        name: B, namen: usize, offs: W, offn: usize, ids: W, idn: usize, strings: M, sn: usize, types: M, tn: usize, out: M,
        outn: usize, count: N);
    ringlinden_name_filter(file: B, n: usize, given: W, gn: usize, query: B, qn: usize, out: M, outn: usize, count: N);
    ringlinden_code_table(file: B, n: usize, header: W, starts: M, sn: usize, triples: M, tn: usize, slots: M, ln: usize, shares: M,
        hn: usize, region_start: N, region_end: N, codes: N, slot_count: N, share_count: N);
    ringlinden_scan(file: B, n: usize, start: u32, end: u32, kind: u32, wanted: W, wn: usize, offs: M, on: usize, marks: M, mn: usize,
        count: N);
    ringlinden_locate(file: B, n: usize, base: u32, slots: W, ln: usize, starts: W, sn: usize, shares: W, hn: usize, entries: W,
        en: usize, further: M, fn_: usize, answers: M, an: usize, count: N);
    ringlinden_list_slot(shares: W, hn: usize, slot: u32, methods: M, mn: usize, count: N);
    ringlinden_find(file: B, n: usize, header: W, kind: u32, wanted: W, wn: usize, starts: M, sn: usize, triples: M, tn: usize, slots: M,
        ln: usize, shares: M, hn: usize, offs: M, on: usize, marks: M, mn: usize, further: M, fn_: usize, answers: M, an: usize,
        region_start: N, region_end: N, hits: N);
}

/// The lines of the program `replay` (`RINGLINDEN_REPLAY`) for cases that it takes. It is run in a folder of its own, on lists of at most
/// 1,048,576 bytes.
pub fn replay(cases: &[Case]) -> Vec<String> {
    const LONGEST: usize = 1 << 20;
    let program = std::env::var_os("RINGLINDEN_REPLAY").expect("RINGLINDEN_REPLAY");
    let folder = std::env::temp_dir().join(format!("ringlinden-replay-{}-{:?}", std::process::id(), std::thread::current().id()));
    std::fs::create_dir_all(&folder).expect("a folder for the cases");
    let mut lines = Vec::new();
    let mut rest = cases;
    while !rest.is_empty() {
        let (mut list, mut n) = (vec![0; 4], 0);
        while n < rest.len() {
            let before = list.len();
            rest[n].write(&mut list);
            if list.len() > LONGEST {
                list.truncate(before);
                break;
            }
            n += 1;
        }
        list[..4].copy_from_slice(&(n as u32).to_le_bytes());
        std::fs::write(folder.join("cases"), &list).expect("cases");
        let done = Command::new(&program).current_dir(&folder).stdin(Stdio::null()).output().expect("the program `replay`");
        let text = String::from_utf8(done.stdout).expect("lines");
        lines.extend(text.lines().map(str::to_owned));
        // A list that was not read to its end has fewer lines: the cases left have none.
        rest = &rest[n..];
        lines.resize(cases.len() - rest.len(), String::new());
    }
    let _ = std::fs::remove_dir_all(&folder);
    lines
}

/// The finder: starts, triples, slots, shares, offsets, marks, further words and answers are lent, in this order.
pub fn find(file: &[u8], header: &[u32; 13], kind: u32, wanted: &[u32], lent: &mut [Vec<u32>; 8]) -> (u32, [usize; 3]) {
    let mut out = [usize::MAX; 3];
    let len = lent.each_ref().map(|l| l.len());
    let p = lent.each_mut().map(|l| l.as_mut_ptr());
    let [r0, r1, r2] = out.each_mut().map(|r| r as N);
    // SAFETY: every pointer comes with the length of its own slice, and no two lent slices are the same.
    let refusal = unsafe {
        ringlinden_find(
            file.as_ptr(), file.len(), header.as_ptr(), kind, wanted.as_ptr(), wanted.len(), p[0], len[0], p[1], len[1], p[2], len[2],
            p[3], len[3], p[4], len[4], p[5], len[5], p[6], len[6], p[7], len[7], r0, r1, r2,
        )
    };
    (refusal, out)
}

/// Refusal, start and count. Inlined, as the next, so that a benchmark's loop makes one call: that of the interface.
#[inline]
pub fn string_bytes(file: &[u8], offset: usize) -> (u32, usize, usize) {
    let (mut start, mut count) = (0, 0);
    // SAFETY: pointer and length are those of one slice.
    let refusal = unsafe { ringlinden_string_bytes(file.as_ptr(), file.len(), offset, &mut start, &mut count) };
    (refusal, start, count)
}

/// Start and count.
#[inline]
pub fn group(offsets: &[u32], ids: &[u32], key: u32) -> (usize, usize) {
    let (mut start, mut count) = (0, 0);
    // SAFETY: pointers and lengths are those of two slices.
    unsafe { ringlinden_group(offsets.as_ptr(), offsets.len(), ids.as_ptr(), ids.len(), key, &mut start, &mut count) };
    (start, count)
}

/// Refusal and count.
pub fn list_slot(shares: &[u32], slot: u32, methods: &mut [u32]) -> (u32, usize) {
    let mut count = 0;
    // SAFETY: pointers and lengths are those of two slices.
    let refusal =
        unsafe { ringlinden_list_slot(shares.as_ptr(), shares.len(), slot, methods.as_mut_ptr(), methods.len(), &mut count) };
    (refusal, count)
}

/// The numbers' places and the lent slices of a call. The keys of the string map are lent apart from the words.
pub struct Buffers {
    pub refusal: u32,
    pub numbers: [usize; 5],
    pub outs: [Vec<u32>; 4],
    pub keys: Vec<u64>,
}

impl Buffers {
    /// Lent full of the word `LENT`.
    pub fn of(case: &Case) -> Self {
        let words = |i: usize| if i < shape(case.op).1 && case.op != STRING_MAP { vec![LENT; case.lent(i)] } else { vec![] };
        Buffers {
            refusal: u32::MAX,
            numbers: [usize::MAX; 5],
            outs: [words(0), words(1), words(2), words(3)],
            keys: if case.op == STRING_MAP { vec![(LENT as u64) << 32 | LENT as u64; case.lent(0)] } else { vec![] },
        }
    }
}

pub fn answer(case: &Case) -> Outcome {
    if case.op == FIND {
        let mut lent = case.lent.map(|n| vec![LENT; n as usize]);
        let header = case.numbers[..13].try_into().unwrap();
        let (refusal, numbers) = find(&case.file, header, case.scalar(0), &case.lists[0], &mut lent);
        return Outcome { refusal, numbers: numbers.map(|n| n as u64).into(), outs: lent.iter().map(|l| wide(l)).collect() };
    }
    let mut b = Buffers::of(case);
    call(case, &mut b);
    let (numbers, outs) = shape(case.op);
    Outcome {
        refusal: b.refusal,
        numbers: b.numbers[..numbers].iter().map(|&n| n as u64).collect(),
        outs: if case.op == STRING_MAP { vec![b.keys] } else { b.outs[..outs].iter().map(|o| wide(o)).collect() },
    }
}

/// One call, into buffers that may be used again.
pub fn call(case: &Case, b: &mut Buffers) {
    let (f, n) = (case.file.as_ptr(), case.file.len());
    let header = case.numbers.as_ptr();
    let (keys, kn) = (case.keys.as_ptr(), case.keys.len());
    let (query, qn) = (case.query.as_ptr(), case.query.len());
    let list = |i: usize| (case.lists[i].as_ptr(), case.lists[i].len());
    let ((l0, n0), (l1, n1), (l2, n2), (l3, n3)) = (list(0), list(1), list(2), list(3));
    let lens = [b.outs[0].len(), b.outs[1].len(), b.outs[2].len(), b.outs[3].len()];
    let [o0, o1, o2, o3] = b.outs.each_mut().map(|o| o.as_mut_ptr());
    let [m0, m1, m2, m3] = lens;
    let [r0, r1, r2, r3, r4] = b.numbers.each_mut().map(|r| r as N);
    let (s0, s1, s2) = (case.scalar(0), case.scalar(1), case.scalar(2));
    // SAFETY: every pointer comes with the length of its own slice; the lent slices and numbers are apart from each other and from the
    // case; the header is the first 13 of 16 numbers.
    b.refusal = unsafe {
        match case.op {
            TYPE_GROUPS => ringlinden_type_groups(f, n, header, o0, m0, o1, m1, r0),
            METHOD_GROUPS => ringlinden_method_groups(f, n, header, o0, m0, o1, m1, o2, m2, o3, m3, r0, r1),
            GROUP => ringlinden_group(l0, n0, l1, n1, s0, r0, r1),
            STRING_MAP => ringlinden_string_map(f, n, header, b.keys.as_mut_ptr(), b.keys.len(), r0, r1, r2),
            STRING_BYTES => ringlinden_string_bytes(f, n, case.offset(), r0, r1),
            STRING_SEARCH => ringlinden_string_search(f, n, keys, kn, s0 as usize, s1 as usize, query, qn, o0, m0, r0),
            TYPE_SEARCH => {
                ringlinden_type_search(f, n, keys, kn, s0 as usize, s1 as usize, query, qn, l0, n0, l1, n1, o0, m0, o1, m1, r0)
            }
            METHOD_SEARCH => ringlinden_method_search(
                f, n, header, keys, kn, s0 as usize, s1 as usize, query, qn, case.second.as_ptr(), case.second.len(), l0, n0, l1, n1,
                o0, m0, o1, m1, o2, m2, r0,
            ),
            NAME_FILTER => ringlinden_name_filter(f, n, l0, n0, query, qn, o0, m0, r0),
            CODE_TABLE => ringlinden_code_table(f, n, header, o0, m0, o1, m1, o2, m2, o3, m3, r0, r1, r2, r3, r4),
            SCAN => ringlinden_scan(f, n, s0, s1, s2, l0, n0, o0, m0, o1, m1, r0),
            LOCATE => ringlinden_locate(f, n, s0, l0, n0, l1, n1, l2, n2, l3, n3, o0, m0, o1, m1, r0),
            LIST_SLOT => ringlinden_list_slot(l0, n0, s0, o0, m0, r0),
            _ => unreachable!(),
        }
    };
}
