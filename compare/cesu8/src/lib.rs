//! Stand-in for the crate `cesu8`. The source decodes texts only where SPEC refuses (11) or leaves the path out, so what is
//! decoded here is never compared; it only has to be there and not to panic.

use std::borrow::Cow;

#[derive(Debug)]
pub struct Cesu8DecodingError;

pub fn from_java_cesu8(bytes: &[u8]) -> Result<Cow<'_, str>, Cesu8DecodingError> {
    let mut units: Vec<u16> = Vec::with_capacity(bytes.len());
    let mut at = 0;
    let tail = |i: usize| bytes.get(i).filter(|&&b| b & 0xc0 == 0x80).map(|&b| (b & 0x3f) as u16).ok_or(Cesu8DecodingError);
    while at < bytes.len() {
        let b = bytes[at] as u16;
        match b {
            0x01..=0x7f => {
                units.push(b);
                at += 1;
            }
            0xc0..=0xdf => {
                units.push((b & 0x1f) << 6 | tail(at + 1)?);
                at += 2;
            }
            0xe0..=0xef => {
                units.push((b & 0x0f) << 12 | tail(at + 1)? << 6 | tail(at + 2)?);
                at += 3;
            }
            _ => return Err(Cesu8DecodingError),
        }
    }
    String::from_utf16(&units).map(Cow::Owned).map_err(|_| Cesu8DecodingError)
}
