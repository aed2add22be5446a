//! `asc_core::models::dvm_opcode`, which is not among the files of the source: SPEC, Instruction lengths, gives its meaning, the length of an
//! instruction in units by its opcode byte.

pub struct Opcode {
    pub oplen: u32,
}

pub struct Opcodes([Option<Opcode>; 256]);

impl Opcodes {
    pub fn get(&self, op: &u8) -> Option<&Opcode> {
        self.0[*op as usize].as_ref()
    }
}

pub const fn units(op: u8) -> u32 {
    match op {
        0x00 | 0x01 | 0x04 | 0x07 | 0x0a..=0x12 | 0x1d | 0x1e | 0x21 | 0x27 | 0x28 | 0x7b..=0x8f | 0xb0..=0xcf => 1,
        0x02 | 0x05 | 0x08 | 0x13 | 0x15 | 0x16 | 0x19 | 0x1a | 0x1c | 0x1f | 0x20 | 0x22 | 0x23 | 0x29 => 2,
        0x2d..=0x3d | 0x44..=0x6d | 0x90..=0xaf | 0xd0..=0xe2 | 0xfe | 0xff => 2,
        0x03 | 0x06 | 0x09 | 0x14 | 0x17 | 0x1b | 0x24..=0x26 | 0x2a..=0x2c | 0x6e..=0x72 | 0x74..=0x78 | 0xfc | 0xfd => 3,
        0xfa | 0xfb => 4,
        0x18 => 5,
        _ => 0,
    }
}

const fn table() -> Opcodes {
    let mut t = [const { None }; 256];
    let mut op = 0;
    while op < 256 {
        let n = units(op as u8);
        if n != 0 {
            t[op] = Some(Opcode { oplen: n });
        }
        op += 1;
    }
    Opcodes(t)
}

pub static opcodes: Opcodes = table();
