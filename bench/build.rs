//! Compiles the plain C digest with `gcc -O3` into a static library.

use std::env;
use std::path::Path;
use std::process::Command;

fn run(program: &str, arguments: &[&str]) {
    let status = Command::new(program).args(arguments).status();
    match status {
        Ok(status) if status.success() => {}
        other => panic!("{program} {arguments:?}: {other:?}"),
    }
}

fn main() {
    println!("cargo:rerun-if-changed=c/sha256.c");
    let out = env::var("OUT_DIR").expect("cargo names the output folder");
    let object = Path::new(&out).join("sha256.o");
    let archive = Path::new(&out).join("libplain.a");
    let (object, archive) = (object.to_str().expect("UTF-8"), archive.to_str().expect("UTF-8"));
    run("gcc", &["-O3", "-fPIC", "-std=c99", "-Wall", "-c", "c/sha256.c", "-o", object]);
    run("ar", &["crs", archive, object]);
    println!("cargo:rustc-link-search=native={out}");
    println!("cargo:rustc-link-lib=static=plain");
}
