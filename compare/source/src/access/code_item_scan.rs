use super::*;

// The hits' offsets; the marks are left in `mark_idx`.
pub fn scan(scanner: &mut CodeItemScanner, kind: &str, idxs: &HashSet<u32>) -> Vec<u32> {
    scanner._scan_code_item(kind, idxs, true)
}
