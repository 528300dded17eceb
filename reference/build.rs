//! Tells the linker where the static library of the C interface is: the folder
//! in `HPAXOS_STATICLIB`, or the one that `rt lib` writes in crates/hpaxos.

use std::env;
use std::path::{Path, PathBuf};

const LAYERS: [&str; 4] = ["DIGEST", "MESSAGES", "GRAPHS", "ROUNDS"];

fn main() {
    println!("cargo:rerun-if-env-changed=HPAXOS_STATICLIB");
    let linked = LAYERS.iter().any(|layer| env::var_os(format!("CARGO_FEATURE_{layer}")).is_some());
    if !linked {
        return;
    }
    let package = env::var("CARGO_MANIFEST_DIR").expect("cargo names the package's folder");
    let folder = env::var_os("HPAXOS_STATICLIB")
        .map(PathBuf::from)
        .unwrap_or_else(|| Path::new(&package).join("../crates/hpaxos/out"));
    println!("cargo:rerun-if-changed={}", folder.join("libhpaxos.a").display());
    println!("cargo:rustc-link-search=native={}", folder.display());
    println!("cargo:rustc-link-lib=static=hpaxos");
}
