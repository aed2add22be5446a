//! Makes a case that shows something smaller, as far as simple steps go.

use crate::case::Case;
use std::time::{Duration, Instant};

/// A case for which `shows` still holds, after every step that keeps it was taken, or those for which there was time: a try with the longest
/// slices takes a second.
pub fn smaller(case: &Case, shows: impl Fn(&Case) -> bool) -> Case {
    const LONGEST: Duration = Duration::from_secs(20);
    let (mut best, from) = (case.clone(), Instant::now());
    let mut tries = 0;
    let mut changed = true;
    let over = |tries: u32| tries >= 20_000 || from.elapsed() > LONGEST;
    while changed && !over(tries) {
        changed = false;
        for step in steps(&best) {
            tries += 1;
            let mut c = best.clone();
            step.take(&mut c);
            if c != best && shows(&c) {
                best = c;
                changed = true;
            }
            if over(tries) {
                break;
            }
        }
    }
    best
}

enum Step {
    Cut(usize),
    ClearByte(usize),
    CutQuery(usize, usize),
    RemoveKey(usize),
    RemoveWord(usize, usize),
    ClearWord(usize, usize),
    Number(usize, u32),
    Lent(usize, u32),
    High,
}

impl Step {
    fn take(&self, c: &mut Case) {
        match *self {
            Step::Cut(n) => c.file.truncate(n),
            Step::ClearByte(i) => {
                if let Some(b) = c.file.get_mut(i) {
                    *b = 0;
                }
            }
            Step::CutQuery(which, n) => [&mut c.query, &mut c.second][which].truncate(n),
            Step::RemoveKey(i) if i < c.keys.len() => {
                c.keys.remove(i);
            }
            Step::RemoveWord(l, i) if i < c.lists[l].len() => {
                c.lists[l].remove(i);
            }
            Step::ClearWord(l, i) if i < c.lists[l].len() => c.lists[l][i] = 0,
            Step::Number(i, x) => c.numbers[i] = x,
            Step::Lent(i, x) => c.lent[i] = x,
            Step::High => c.high = 0,
            _ => {}
        }
    }
}

/// From the boldest to the smallest; of a large file only cuts.
fn steps(c: &Case) -> Vec<Step> {
    let n = c.file.len();
    let mut s = vec![Step::Cut(0), Step::Cut(n / 2), Step::Cut(n - n / 4), Step::Cut(n - n / 16), Step::Cut(n.saturating_sub(1)), Step::High];
    for i in 0..c.numbers.len() {
        s.extend([0, c.numbers[i] / 2, c.numbers[i].saturating_sub(1)].map(|x| Step::Number(i, x)));
    }
    for i in 0..c.lent.len() {
        s.extend([0, c.lent[i] / 2, c.lent[i].saturating_sub(1)].map(|x| Step::Lent(i, x)));
    }
    for i in 0..4 {
        s.extend((0..c.lists[i].len().min(200)).rev().map(|j| Step::RemoveWord(i, j)));
        s.extend((0..c.lists[i].len().min(200)).map(|j| Step::ClearWord(i, j)));
    }
    for (which, q) in [&c.query, &c.second].iter().enumerate() {
        s.extend([0, q.len() / 2, q.len().saturating_sub(1)].map(|x| Step::CutQuery(which, x)));
    }
    s.extend((0..c.keys.len().min(200)).rev().map(Step::RemoveKey));
    if n <= 4096 {
        s.extend((0..n).map(Step::ClearByte));
    }
    s
}
