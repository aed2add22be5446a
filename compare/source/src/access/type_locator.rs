use super::*;

pub fn with_tables<'a>(dex: &'a DEX, str_offsets: Vec<u32>, type_idxs: Vec<u32>) -> TypeLocator<'a> {
    TypeLocator { parsed: true, str_offsets, type_idxs, ..TypeLocator::new(dex) }
}

// str_offsets, type_idxs
pub fn tables<'b>(l: &'b TypeLocator) -> (&'b [u32], &'b [u32]) {
    (&l.str_offsets, &l.type_idxs)
}

pub fn types_of<'b>(l: &'b TypeLocator, str_idx: u32) -> &'b [u32] {
    l.types_of(str_idx)
}
