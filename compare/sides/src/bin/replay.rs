//! Writes the replay list: cases and what must be printed for them, by the Rust where it answers, else by SPEC. Ours isn't called.
//! Usage: replay FOLDER SAMPLE; writes FOLDER/data/cases and FOLDER/stdout.

use sides::case::*;
use sides::inputs::{array_ends, payloads, walks_that_go_on, Inputs};
use sides::{expected, silence, Expected};
use std::collections::HashSet;
use std::fs;
use std::path::Path;

const SEED: u64 = 20_261_115;

/// Of an operation's answers on the domain, and of each refusal, that many at most; answers only up to that many bytes.
const DOMAIN: usize = 240;
const EACH_REFUSAL: usize = 12;
const BYTES: usize = 68_000;

/// Of the cases that every run has, one in so many of locate's with payloads, of those around the ends of arrays, and of locate's with walks that go
/// on from entry to entry; they come before, and don't count towards the others.
const PAYLOADS: usize = 201;
const ENDS: usize = 53;
const WALKS: usize = 1511;

/// One more than the greatest refusal.
const REFUSALS: usize = 17;

fn main() {
    let args: Vec<String> = std::env::args().collect();
    let [_, folder, sample] = &args[..] else { panic!("usage: replay FOLDER SAMPLE") };
    silence();
    let inputs = Inputs::new(SEED, Path::new(sample), Path::new("no larger files"));
    let (mut cases, mut lines, mut count) = (Vec::new(), String::new(), 0u32);
    for op in TYPE_GROUPS..=NAME_SLICE {
        let (mut domain, mut answered, mut refusals) = (0, 0, [0; REFUSALS]);
        let mut seen: HashSet<String> = HashSet::new();
        let mut bytes = 0;
        let payloads = if op == LOCATE { payloads(op) } else { vec![] };
        let ends = if matches!(op, CODE_TABLE | LOCATE) { array_ends(op) } else { vec![] };
        let walks = if op == LOCATE { walks_that_go_on() } else { vec![] };
        let always = payloads.iter().step_by(PAYLOADS).chain(ends.iter().step_by(ENDS)).chain(walks.iter().step_by(WALKS));
        for case in always.filter(|c| replay_takes(c)) {
            let (Expected::Domain(o) | Expected::Off(o)) = expected(case) else {
                panic!("the Rust differs from SPEC: see run --op {}", OPS[op as usize - 1])
            };
            case.write(&mut cases);
            lines += &o.line(op);
            lines.push('\n');
            count += 1;
        }
        for index in 0..200_000u64 {
            // Random cases and, one in ten, counted ones; small files mostly.
            let case = inputs.case(op, if index % 10 == 0 { 2 * index } else { 2 * index + 1 });
            if !replay_takes(&case) || case.file.len() > 260 && index % 24 != 1 || case.file.len() > 1000 && index % 96 != 1 {
                continue;
            }
            let (outcome, counter, most) = match expected(&case) {
                Expected::Domain(o) if o.refusal == 0 => (o, &mut domain, DOMAIN),
                Expected::Off(o) if o.refusal == 0 => (o, &mut answered, EACH_REFUSAL),
                Expected::Domain(o) | Expected::Off(o) => {
                    let n = o.refusal as usize;
                    (o, &mut refusals[n], EACH_REFUSAL)
                }
                Expected::Dispute { .. } => panic!("the Rust differs from SPEC: see run --op {}", OPS[op as usize - 1]),
            };
            if *counter >= most || bytes > BYTES && outcome.refusal == 0 {
                continue;
            }
            // The answers are to differ, but for one in seven.
            let line = outcome.line(op);
            if outcome.refusal == 0 && !seen.insert(line.clone()) && index % 7 != 0 {
                continue;
            }
            *counter += 1;
            count += 1;
            let before = cases.len();
            case.write(&mut cases);
            bytes += cases.len() - before;
            lines += &line;
            lines.push('\n');
        }
        let by: Vec<String> = (0..REFUSALS).filter(|&n| refusals[n] > 0).map(|n| format!("{n}: {}", refusals[n])).collect();
        println!("{:17} {domain} answers, {answered} by SPEC alone, refusals {}; {bytes} bytes", OPS[op as usize - 1], by.join(", "));
    }
    let folder = Path::new(folder);
    fs::create_dir_all(folder.join("data")).unwrap();
    let mut file = count.to_le_bytes().to_vec();
    file.extend(&cases);
    fs::write(folder.join("data/cases"), &file).unwrap();
    fs::write(folder.join("stdout"), &lines).unwrap();
    println!("{count} cases, {} bytes; {} bytes of lines", file.len(), lines.len());
}
