//! Checks the Rust source against ../SUMS (SHA-256) and writes the modules that include it, unchanged.

use std::{env, fs, path::{Path, PathBuf}};

// A file's place below src/asc_core, and whether a module `access` stands beside its private functions.
const FILES: [(&str, bool); 9] = [
    ("utils/structs", false),
    ("utils/leb128", false),
    ("utils/tinydex", false),
    ("findrefs/locator/base_locator", false),
    ("findrefs/locator/string_locator", true),
    ("findrefs/locator/type_locator", true),
    ("findrefs/locator/method_locator", true),
    ("findrefs/locator/insn_locator", false),
    ("findrefs/scan/code_item_scan", true),
];

fn main() {
    let here = PathBuf::from(env::var("CARGO_MANIFEST_DIR").unwrap());
    let workspace = here.parent().unwrap().to_path_buf();
    println!("cargo:rerun-if-env-changed=RINGLINDEN_SOURCE");
    println!("cargo:rerun-if-changed=build.rs");
    let given = env::var("RINGLINDEN_SOURCE").unwrap_or_else(|_| "../../shared/docs/src".into());
    let source = workspace.join(given);
    let source = source.canonicalize().unwrap_or_else(|e| {
        panic!("the Rust source is not at {}: {e}; say where it is by RINGLINDEN_SOURCE", source.display())
    });

    let sums_file = workspace.join("SUMS");
    println!("cargo:rerun-if-changed={}", sums_file.display());
    let sums = fs::read_to_string(&sums_file).expect("compare/SUMS");
    let module = |path: &str, access: bool| -> String {
        let name = format!("src/asc_core/{path}.rs");
        let file = source.join(&name);
        println!("cargo:rerun-if-changed={}", file.display());
        let sum = hex(&sha256(&fs::read(&file).unwrap_or_else(|e| panic!("{}: {e}", file.display()))));
        assert!(sums.lines().any(|l| l == format!("{sum}  {name}")), "{name} is not the file whose sum is in compare/SUMS");
        let ident = path.rsplit('/').next().unwrap();
        if access {
            let beside = here.join("src/access").join(format!("{ident}.rs"));
            println!("cargo:rerun-if-changed={}", beside.display());
            format!("pub mod {ident} {{ include!({file:?}); #[path = {beside:?}] pub mod access; }}\n")
        } else {
            format!("#[path = {file:?}] pub mod {ident};\n")
        }
    };
    let all = |folder: &str| -> String {
        let inside = |p: &str| Path::new(p).parent() == Some(Path::new(folder));
        FILES.iter().filter(|(p, _)| inside(p)).map(|&(p, a)| module(p, a)).collect()
    };
    let text = format!(
        "pub mod asc_core {{\npub mod models {{ pub mod dvm_opcode {{ pub use crate::opcode_lengths::opcodes; }} }}\n\
         pub mod utils {{\n{}}}\npub mod findrefs {{\npub mod locator {{\n{}}}\npub mod scan {{\n{}}}\n}}\n}}\n",
        all("utils"),
        all("findrefs/locator"),
        all("findrefs/scan")
    );
    fs::write(PathBuf::from(env::var("OUT_DIR").unwrap()).join("asc_core.rs"), text).unwrap();
}

fn hex(bytes: &[u8]) -> String {
    bytes.iter().map(|b| format!("{b:02x}")).collect()
}

// FIPS 180-4. The constants are the first 32 bits of the fractions of the roots of the first primes, computed by integers.
fn sha256(data: &[u8]) -> Vec<u8> {
    let primes: Vec<u128> = (2u128..).filter(|n| (2..*n).take_while(|d| d * d <= *n).all(|d| n % d != 0)).take(64).collect();
    // The greatest r with r^e <= n, where e is 2 or 3.
    let root = |n: u128, e: u32| -> u128 {
        let (mut lo, mut hi) = (0u128, 1u128 << 42);
        while hi - lo > 1 {
            let mid = (lo + hi) / 2;
            if mid.checked_pow(e).is_some_and(|p| p <= n) { lo = mid } else { hi = mid }
        }
        lo
    };
    let mut h: Vec<u32> = primes[..8].iter().map(|&p| root(p << 64, 2) as u32).collect();
    let k: Vec<u32> = primes.iter().map(|&p| root(p << 96, 3) as u32).collect();
    let mut text = data.to_vec();
    text.push(0x80);
    while text.len() % 64 != 56 {
        text.push(0);
    }
    text.extend((data.len() as u64 * 8).to_be_bytes());
    for block in text.chunks(64) {
        let mut w: Vec<u32> = block.chunks(4).map(|b| u32::from_be_bytes(b.try_into().unwrap())).collect();
        for i in 16..64 {
            let s0 = w[i - 15].rotate_right(7) ^ w[i - 15].rotate_right(18) ^ (w[i - 15] >> 3);
            let s1 = w[i - 2].rotate_right(17) ^ w[i - 2].rotate_right(19) ^ (w[i - 2] >> 10);
            w.push(w[i - 16].wrapping_add(s0).wrapping_add(w[i - 7]).wrapping_add(s1));
        }
        let mut v = h.clone();
        for i in 0..64 {
            let s1 = v[4].rotate_right(6) ^ v[4].rotate_right(11) ^ v[4].rotate_right(25);
            let ch = (v[4] & v[5]) ^ (!v[4] & v[6]);
            let t1 = v[7].wrapping_add(s1).wrapping_add(ch).wrapping_add(k[i]).wrapping_add(w[i]);
            let s0 = v[0].rotate_right(2) ^ v[0].rotate_right(13) ^ v[0].rotate_right(22);
            let maj = (v[0] & v[1]) ^ (v[0] & v[2]) ^ (v[1] & v[2]);
            v.rotate_right(1);
            v[4] = v[4].wrapping_add(t1);
            v[0] = t1.wrapping_add(s0.wrapping_add(maj));
        }
        for (a, b) in h.iter_mut().zip(v) {
            *a = a.wrapping_add(b);
        }
    }
    h.iter().flat_map(|x| x.to_be_bytes()).collect()
}
