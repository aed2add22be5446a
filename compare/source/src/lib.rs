//! The Rust source as it stands in RINGLINDEN_SOURCE: build.rs checks its files against ../SUMS and writes the modules that include
//! them. Beside a file with private functions stands a module `access`, a child of the file's own, which hands them out.
#![allow(warnings)]

include!(concat!(env!("OUT_DIR"), "/asc_core.rs"));

pub mod opcode_lengths;
