//! Ours and the Rust, side by side.

pub mod alone;
pub mod case;
pub mod document;
pub mod inputs;
pub mod ours;
pub mod shrink;
pub mod synth;
pub mod theirs;

use case::{Case, Outcome, STRING_MAP};

/// What ours must answer to a case, and by what it was found.
pub enum Expected {
    /// On the domain: the Rust's answer, without what it confirms past the ends of arrays.
    Domain(Outcome),
    /// Off it: SPEC's.
    Off(Outcome),
    /// The Rust and SPEC differ on the domain, or the Rust panics where SPEC has no fault and no word on it.
    Dispute { theirs: Option<Outcome>, document: Outcome },
}

/// Whether the Rust may panic on a case without a fault, since SPEC says what ours does instead: ids whose key equals the pool size
/// are dropped, and offsets that don't fit give the empty stretch. Any other such panic is reported.
fn told_otherwise(case: &Case) -> bool {
    let word = |at: u64| case.file.get(at as usize..at as usize + 4).map(|b| u32::from_le_bytes(b.try_into().unwrap()));
    let misfit = |w: &[u32]| w[0] > w[1] || w[1] as usize > case.lists[1].len();
    match case.op {
        case::TYPE_GROUPS => {
            let t = case.types();
            (0..t.size as u64).any(|i| word(t.off as u64 + 4 * i) == Some(case.strings().size))
        }
        case::METHOD_GROUPS => {
            let m = case.methods();
            (0..m.size as u64).map(|i| m.off as u64 + 8 * i).any(|at| {
                word(at).map(|w| w & 0xffff) == Some(case.types().size) || word(at + 4) == Some(case.strings().size)
            })
        }
        case::GROUP | case::TYPES_OF | case::CLZ_SLICE | case::NAME_SLICE => case.lists[0].windows(2).nth(case.scalar(0) as usize).is_some_and(misfit),
        case::TYPE_SEARCH | case::METHOD_SEARCH => case.lists[0].windows(2).any(misfit),
        _ => false,
    }
}

pub fn expected(case: &Case) -> Expected {
    let document = document::verdict(case);
    let refusal = document.refusal;
    if refusal != 0 && (!document::may_be_domain(case.op, refusal) || theirs::hostile(case)) {
        return Expected::Off(document);
    }
    // Listing: the Rust needs as many words as the first method's index.
    if case.op == case::LIST_SLOT && document.outs[0].first().is_some_and(|&m| m >= 1 << 16) {
        return Expected::Off(document);
    }
    // A region that ends with the file, in the middle of a block: the Rust's ends with the block, which its scanner panics on.
    if matches!(case.op, case::CODE_TABLE | case::FIND) && document.numbers[1] % 16 != 0 {
        return Expected::Off(document);
    }
    // The Rust has no ends of arrays: it may walk on from an entry past the end, and lose one before the end that comes later in the list.
    if case.op == case::LOCATE && !case.lists[3].is_sorted() {
        return Expected::Off(document);
    }
    // The Rust knows no payloads: it walks over their bytes as over instructions.
    if document::meets_payload(case) {
        return Expected::Off(document);
    }
    match theirs::answer(case).map(|answer| theirs::within_ends(case, answer)) {
        Some(theirs) => {
            // For 3 and 5 of the string map the Rust answers with an empty map.
            let empty = || Outcome { refusal: 0, ..document.clone() };
            if theirs == document || (case.op == STRING_MAP && matches!(refusal, 3 | 5) && theirs == empty()) {
                return Expected::Domain(document);
            }
            Expected::Dispute { theirs: Some(theirs), document }
        }
        None if refusal != 0 || told_otherwise(case) => Expected::Off(document),
        None => Expected::Dispute { theirs: None, document },
    }
}

/// No word on standard error where the Rust panics.
pub fn silence() {
    std::panic::set_hook(Box::new(|_| {}));
}
