use super::*;

pub fn with_tables<'a>(dex: &'a DEX, offsets: Vec<u32>, mids: Vec<u32>) -> MethodLocator<'a> {
    MethodLocator {
        parsed: true,
        clz_offsets: offsets.clone(),
        clz_mids: mids.clone(),
        name_offsets: offsets,
        name_mids: mids,
        ..MethodLocator::new(dex)
    }
}

// clz_offsets, clz_mids, name_offsets, name_mids
pub fn tables<'b>(l: &'b MethodLocator) -> [&'b [u32]; 4] {
    [&l.clz_offsets, &l.clz_mids, &l.name_offsets, &l.name_mids]
}

pub fn clz_slice<'b>(l: &'b MethodLocator, class_idx: u32) -> &'b [u32] {
    l.clz_slice(class_idx)
}

pub fn name_slice<'b>(l: &'b MethodLocator, name_idx: u32) -> &'b [u32] {
    l.name_slice(name_idx)
}
