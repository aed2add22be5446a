//! What follows of several calls from SPEC's words on one: in a nondecreasing list an entry's answer is that of a list with it alone; so what
//! two wanted lists find together is what each finds, merged. Tried on ours, with further calls for a case that it answered.

use crate::case::*;
use crate::{document, ours};

/// How many entries were asked for alone, how many lists over tables that a build left, none of which may be refused 15, and how many wanted
/// lists were split.
#[derive(Default)]
pub struct Tried {
    pub alone: u64,
    pub lists: u64,
    pub split: u64,
}

/// Up to `most` numbers below n, spread over all of them; the first and the last are among them.
fn spread(n: usize, most: usize) -> Vec<usize> {
    if n <= most { (0..n).collect() } else { (0..most).map(|i| i * (n - 1) / (most - 1)).collect() }
}

/// For locate and the finder, by the refusal's number that ours gave; nothing is to be tried of other operations. Of a list, `most` entries at most
/// are asked for alone. The finder's further calls are only made where `split` says so.
pub fn tried(case: &Case, refusal: u32, most: usize, split: bool) -> Result<Tried, String> {
    let mut tried = Tried::default();
    match (case.op, refusal) {
        (LOCATE, 0) if case.lists[3].is_sorted() => each_alone(case, &ours::answer(case), most, &mut tried)?,
        (FIND, 0) if split => {
            let whole = ours::answer(case);
            over_tables(case, &whole, most, &mut tried)?;
            split_in_two(case, &whole, &mut tried)?;
        }
        (FIND, 15) => return Err("the finder is refused 15, over what a build returned".into()),
        _ => {}
    }
    Ok(tried)
}

/// Entries of a nondecreasing list, each as a list of its own: ours and SPEC must have the answer of the whole list.
fn each_alone(case: &Case, whole: &Outcome, most: usize, tried: &mut Tried) -> Result<(), String> {
    let mut one = Case { lists: Default::default(), ..case.clone() };
    one.lists[..3].clone_from_slice(&case.lists[..3]);
    one.lent[1] = 1;
    for i in spread(case.lists[3].len(), most) {
        one.lists[3] = vec![case.lists[3][i]];
        tried.alone += 1;
        let same = Outcome::done(&one, &[1], vec![vec![], vec![whole.outs[1][i]]]);
        for (who, alone) in [("ours", ours::answer(&one)), ("SPEC", document::verdict(&one))] {
            if alone != same {
                let (off, line) = (case.lists[3][i], whole.line(LOCATE));
                return Err(format!("entry {i}, {off}, has another answer alone\n  ours, all: {line}\n  {who}, alone: {}", alone.line(LOCATE)));
            }
        }
    }
    Ok(())
}

/// The tables as ours left them, passed on to locate with a list of their own: the hits, and offsets in and around the region, every third twice.
/// It must be answered, as SPEC answers it.
fn over_tables(case: &Case, whole: &Outcome, most: usize, tried: &mut Tried) -> Result<(), String> {
    const SPREAD: usize = 48;
    let words = |i: usize, n: usize| whole.outs[i][..n].iter().map(|&w| w as u32).collect::<Vec<u32>>();
    let (from, to) = (whole.numbers[0] as u32, whole.numbers[1] as u32);
    let around = from.saturating_sub(2)..to + 3;
    let mut entries = words(4, (whole.numbers[2] as usize).min(SPREAD));
    for i in spread(around.len(), SPREAD) {
        let off = around.start + i as u32;
        entries.extend(&[off, off][..if off % 3 == 0 { 2 } else { 1 }]);
    }
    entries.sort();
    let mut locate = Case::new(LOCATE);
    locate.file = case.file.clone();
    locate.numbers[13] = from / 16;
    (locate.lent[0], locate.lent[1]) = (case.methods().size, entries.len() as u32);
    let starts = 2 * case.methods().size as usize;
    locate.lists = [words(2, case.lent(2)), words(0, starts), words(3, case.lent(3)), entries];
    tried.lists += 1;
    let (ours, document) = (ours::answer(&locate), document::verdict(&locate));
    if ours.refusal != 0 || ours != document {
        let [ours, document] = [ours, document].map(|o| o.line(LOCATE));
        return Err(format!("a list over the tables that the finder left\n  {}\n  ours: {ours}\n  SPEC: {document}", locate.describe()));
    }
    each_alone(&locate, &ours, most, tried).map_err(|text| format!("over the tables that the finder left, {text}\n  {}", locate.describe()))
}

/// Offset, index and slot of the confirmed entries.
fn confirmed(found: &Outcome) -> Vec<[u64; 3]> {
    let all = (0..found.numbers[2] as usize).map(|i| [found.outs[4][i], found.outs[5][i], found.outs[7][i]]);
    all.filter(|entry| entry[2] != 0).collect()
}

/// Of three wanted words one goes to the first list, one to the second, and one to both. Which ones is the case's: by the file's length.
fn split_in_two(case: &Case, whole: &Outcome, tried: &mut Tried) -> Result<(), String> {
    let mut merged = Vec::new();
    let mut text = String::new();
    for left_out in [0, 1] {
        let numbered = case.lists[0].iter().zip(case.file.len()..);
        let wanted: Vec<u32> = numbered.filter(|(_, i)| i % 3 != left_out).map(|(&w, _)| w).collect();
        let part = Case { lists: [wanted, vec![], vec![], vec![]], ..case.clone() };
        let found = ours::answer(&part);
        text += &format!("\n  ours, {:?}: {}", part.lists[0], found.line(FIND));
        if found.refusal != 0 {
            return Err(format!("a part of the wanted list is refused{text}"));
        }
        merged.extend(confirmed(&found));
    }
    // By offset; an entry that both have once. One offset with two indices or slots would stay twice, and differ.
    merged.sort();
    merged.dedup();
    tried.split += 1;
    if merged == confirmed(whole) {
        return Ok(());
    }
    Err(format!("two parts of the wanted list find something else than the whole{text}\n  ours, all: {}", whole.line(FIND)))
}
