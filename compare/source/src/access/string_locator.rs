use super::*;

pub fn string_data_bytes(buf: &[u8], offset: usize) -> Result<&[u8], String> {
    StringLocator::string_data_bytes(buf, offset)
}

pub fn locate_name_indices(buf: &[u8], names: &[u32], query: &str) -> Result<HashSet<u32>, String> {
    StringLocator::locate_name_indices(buf, names.iter().copied(), query)
}
