//! Links the library if its archive is there, and says which of its functions it has.
//! RTT_LIBRARY names the archive; otherwise it is ../out/librtt.a.

use std::path::{Path, PathBuf};

const FUNCTIONS: [&str; 7] = ["rtt_complete", "rtt_query", "rtt_check", "rtt_ends", "rtt_intervals", "rtt_forward", "rtt_back"];

fn main() {
    let named = std::env::var("RTT_LIBRARY").map(PathBuf::from);
    let path = named.unwrap_or_else(|_| Path::new(&std::env::var("CARGO_MANIFEST_DIR").unwrap()).join("../out/librtt.a"));
    println!("cargo:rerun-if-env-changed=RTT_LIBRARY");
    println!("cargo:rerun-if-changed={}", path.display());
    for function in FUNCTIONS {
        println!("cargo:rustc-check-cfg=cfg({function})");
    }
    let Ok(archive) = std::fs::read(&path) else { return };
    let symbols = symbols(&archive);
    for function in FUNCTIONS.iter().filter(|f| symbols.iter().any(|s| s == *f)) {
        println!("cargo:rustc-cfg={function}");
    }
    println!("cargo:rustc-link-arg={}", path.canonicalize().unwrap().display());
}

/// The names in the archive's symbol table: its first member, "/", has a count and as many offsets, four bytes each
/// and highest first, then the names, each with a zero after it.
fn symbols(archive: &[u8]) -> Vec<String> {
    if !archive.starts_with(b"!<arch>\n/ ") {
        return Vec::new();
    }
    let field = |bytes: &[u8]| String::from_utf8_lossy(bytes).trim().parse().unwrap_or(0);
    let size: usize = field(&archive[8 + 48..8 + 58]);
    let table = &archive[68..68 + size];
    let count = u32::from_be_bytes([table[0], table[1], table[2], table[3]]) as usize;
    table[4 + 4 * count..].split(|&b| b == 0).take(count).map(|s| String::from_utf8_lossy(s).into_owned()).collect()
}
