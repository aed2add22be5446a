//! The comparison: ours against the Rust on the domain, against SPEC off it. Called by ../run, which says how.

use sides::case::*;
use sides::inputs::{self, Inputs};
use sides::{alone, expected, ours, shrink, silence, Expected};
use std::io::Write;
use std::path::PathBuf;
use std::sync::atomic::{AtomicU64, Ordering::Relaxed};
use std::sync::Mutex;
use std::time::Instant;

/// Reports of unequal cases are printed up to that many for an operation.
const REPORTS: u64 = 5;

/// Of a list that locate answers, that many entries at most are asked for alone; of the lists of every run, that many.
const ALONE: usize = 8;
const ALONE_ALWAYS: usize = 64;

/// One in so many cases of the finder has its wanted list split, and a list located over its tables; and so have those of every run.
const SPLIT: u64 = 16;

/// compared: on the domain, with the Rust; found: of the equal ones, with more than an empty answer. Off the domain, held against SPEC:
/// refused, and answered (the Rust panics, or can't be asked). numbers: the refusals that were met, on the domain and off it.
const HEAD: &str = "operation         compared    equal    found  refused answered  unequal  numbers";

enum Class {
    /// With something found, or the empty answer; and the refusal's number.
    Equal(bool, u32),
    Refused(u32),
    Answered,
    Unequal,
}

/// Ours, for a case that goes through the program `replay`: its line. None for the others.
fn replayed(cases: &[Case]) -> Vec<Option<String>> {
    if cases.first().is_some_and(|c| hands_back_part(c.op)) {
        ours::replay(cases).into_iter().map(Some).collect()
    } else {
        vec![None; cases.len()]
    }
}

/// Whether an answer says more than that there is nothing.
fn found(op: u32, outcome: &Outcome) -> bool {
    match op {
        LOCATE => outcome.outs[1].iter().any(|&w| w != 0),
        GROUP | STRING_BYTES => outcome.numbers[1] != 0,
        CODE_TABLE | FIND => outcome.numbers[2] != 0,
        _ => outcome.numbers[0] != 0,
    }
}

fn class(case: &Case, line: &Option<String>) -> Class {
    let ours_is = |outcome: &Outcome| match line {
        Some(line) => *line == outcome.line(case.op),
        None => ours::answer(case) == *outcome,
    };
    match expected(case) {
        Expected::Domain(outcome) if ours_is(&outcome) => Class::Equal(found(case.op, &outcome), outcome.refusal),
        Expected::Off(outcome) if ours_is(&outcome) => {
            if outcome.refusal == 0 { Class::Answered } else { Class::Refused(outcome.refusal) }
        }
        _ => Class::Unequal,
    }
}

fn report(case: &Case) -> String {
    let line = |c: &Case| replayed(std::slice::from_ref(c)).remove(0);
    let case = shrink::smaller(case, |c| (!hands_back_part(c.op) || replay_takes(c)) && matches!(class(c, &line(c)), Class::Unequal));
    let ours = line(&case).unwrap_or_else(|| ours::answer(&case).line(case.op));
    let (what, lines) = match expected(&case) {
        Expected::Domain(o) => ("ours differs from the Rust", vec![("Rust", o)]),
        Expected::Off(o) => ("ours differs from SPEC, off the domain", vec![("SPEC", o)]),
        Expected::Dispute { theirs: Some(t), document } => ("the Rust differs from SPEC", vec![("Rust", t), ("SPEC", document)]),
        Expected::Dispute { theirs: None, document } => ("the Rust panics without a fault", vec![("SPEC", document)]),
    };
    let mut text = format!("UNEQUAL: {what}\n  {}\n  ours: {ours}\n", case.describe());
    for (who, outcome) in lines {
        text += &format!("  {who}: {}\n", outcome.line(case.op));
    }
    text
}

/// A case of which what `alone` tries fails, made smaller.
fn report_alone(case: &Case) -> String {
    let again = |c: &Case| alone::tried(c, ours::answer(c).refusal, usize::MAX, true);
    let case = shrink::smaller(case, |c| again(c).is_err());
    let text = again(&case).err().unwrap_or_default();
    format!("UNEQUAL: {text}\n  {}\n", case.describe())
}

#[derive(Default)]
struct Counts {
    equal: AtomicU64,
    found: AtomicU64,
    refused: AtomicU64,
    answered: AtomicU64,
    unequal: AtomicU64,
    /// A bit for each refusal that was met.
    numbers: AtomicU64,
    next: AtomicU64,
}

/// What `alone` tried, of all operations.
#[derive(Default)]
struct Further {
    alone: AtomicU64,
    lists: AtomicU64,
    split: AtomicU64,
}

fn main() {
    let (mut seed, mut count, mut only, mut threads) = (1u64, 1_000_000u64, None, 2);
    let (mut sample, mut folder) = (PathBuf::new(), PathBuf::new());
    let mut args = std::env::args().skip(1);
    while let Some(a) = args.next() {
        let mut value = || args.next().unwrap_or_else(|| usage());
        match a.as_str() {
            "--seed" => seed = value().parse().unwrap_or_else(|_| usage()),
            "--count" => count = value().parse().unwrap_or_else(|_| usage()),
            "--threads" => threads = value().parse().unwrap_or_else(|_| usage()),
            "--op" => {
                let name = value();
                only = Some(OPS.iter().position(|&o| o == name).unwrap_or_else(|| usage()) as u32 + 1);
            }
            "--sample" => sample = value().into(),
            "--files" => folder = value().into(),
            _ => usage(),
        }
    }
    silence();
    eprintln!("{HEAD}");
    let made_from = Inputs::new(seed, &sample, &folder);
    let start = Instant::now();
    let mut lines = Vec::new();
    let mut bad = 0;
    let further = Further::default();
    for op in (1..=OPS.len() as u32).filter(|&op| only.is_none_or(|o| o == op)) {
        let counts = Counts::default();
        let out = Mutex::new(());
        for case in inputs::always(op) {
            count_in(&case, &None, None, &counts, &further, &out);
        }
        // As many cases as it takes to compare `count` on the domain besides those, ten times that at most.
        let on_domain = || counts.equal.load(Relaxed) + counts.unequal.load(Relaxed);
        let (always, mut made) = (on_domain(), 0);
        loop {
            let compared = on_domain() - always;
            if compared >= count || made >= 10 * count {
                break;
            }
            let (from, to) = (made, made + (count - compared).max(1000));
            counts.next.store(from, Relaxed);
            std::thread::scope(|s| {
                for _ in 0..threads {
                    s.spawn(|| work(op, to, &made_from, &counts, &further, &out));
                }
            });
            made = to;
        }
        let [equal, found, refused, answered, unequal] =
            [&counts.equal, &counts.found, &counts.refused, &counts.answered, &counts.unequal].map(|c| c.load(Relaxed));
        bad += unequal;
        let numbers = counts.numbers.load(Relaxed);
        let numbers: String = (1..64).filter(|n| numbers >> n & 1 == 1).map(|n| format!(" {n}")).collect();
        lines.push(format!(
            "{:17}{:>9}{equal:>9}{found:>9}{refused:>9}{answered:>9}{unequal:>9} {numbers}",
            OPS[op as usize - 1],
            equal + unequal
        ));
        eprintln!("\r{}   {:.0} s", lines.last().unwrap(), start.elapsed().as_secs_f64());
    }
    println!("seed {seed}, {count} cases an operation on the domain, {:.0} s", start.elapsed().as_secs_f64());
    println!("{HEAD}");
    lines.iter().for_each(|l| println!("{l}"));
    let [alone, lists, split] = [&further.alone, &further.lists, &further.split].map(|c| c.load(Relaxed));
    println!("{alone} entries asked for alone, {lists} lists over tables that the finder left, {split} wanted lists split in two");
    println!("{bad} unequal");
    std::process::exit(if bad == 0 { 0 } else { 1 });
}

/// The cases up to `to`, in stretches that the threads take in turn.
fn work(op: u32, to: u64, made_from: &Inputs, counts: &Counts, further: &Further, out: &Mutex<()>) {
    const STRETCH: u64 = 1000;
    loop {
        let from = counts.next.fetch_add(STRETCH, Relaxed);
        if from >= to {
            return;
        }
        let cases: Vec<Case> = (from..(from + STRETCH).min(to)).map(|index| made_from.case(op, index)).collect();
        for ((case, line), index) in cases.iter().zip(replayed(&cases)).zip(from..) {
            count_in(case, &line, Some(index), counts, further, out);
        }
        if from % 20_000 == 0 {
            eprint!("\r{:17} case {from}", OPS[op as usize - 1]);
            let _ = std::io::stderr().flush();
        }
    }
}

/// A case by its number, or one of every run.
fn count_in(case: &Case, line: &Option<String>, index: Option<u64>, counts: &Counts, further: &Further, out: &Mutex<()>) {
    let unequal = |report: fn(&Case) -> String| {
        if counts.unequal.load(Relaxed) < REPORTS {
            let text = report(case);
            let _held = out.lock();
            let name = index.map_or("of every run".into(), |i| i.to_string());
            print!("case {name}: {text}");
        }
        counts.unequal.fetch_add(1, Relaxed);
    };
    let class = class(case, line);
    let refusal = match class {
        Class::Equal(_, number) | Class::Refused(number) => number,
        Class::Answered => 0,
        Class::Unequal => return unequal(report),
    };
    let (most, split) = index.map_or((ALONE_ALWAYS, true), |i| (ALONE, i % SPLIT == 1));
    match alone::tried(case, refusal, most, split) {
        Ok(tried) => {
            further.alone.fetch_add(tried.alone, Relaxed);
            further.lists.fetch_add(tried.lists, Relaxed);
            further.split.fetch_add(tried.split, Relaxed);
        }
        Err(_) => return unequal(report_alone),
    }
    counts.numbers.fetch_or(1 << refusal, Relaxed);
    let counter = match class {
        Class::Equal(found, _) => {
            counts.found.fetch_add(found as u64, Relaxed);
            &counts.equal
        }
        Class::Refused(_) => &counts.refused,
        _ => &counts.answered,
    };
    counter.fetch_add(1, Relaxed);
}

fn usage() -> ! {
    eprintln!("usage: run [--seed S] [--count N] [--op NAME]\noperations: {}", OPS.join(" "));
    std::process::exit(2)
}
