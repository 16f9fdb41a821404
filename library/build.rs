//! Links libferrunchju.a, the proved calls: from the folder that FERRUNCHJU_LIB names, or from crates/ferrunchju/out, where `rt lib` writes it.

use std::path::PathBuf;

fn main() {
    println!("cargo:rerun-if-env-changed=FERRUNCHJU_LIB");
    let target = std::env::var("TARGET").expect("cargo says for which machine it builds");
    if !target.starts_with("x86_64-") || !target.contains("linux") {
        stop(&format!("libferrunchju.a is for x86-64 Linux, and this build is for {target}"));
    }
    let folder = match std::env::var_os("FERRUNCHJU_LIB") {
        Some(folder) => PathBuf::from(folder),
        None => {
            let here = std::env::var_os("CARGO_MANIFEST_DIR").expect("cargo says where the crate is");
            PathBuf::from(here).join("../crates/ferrunchju/out")
        }
    };
    let archive = folder.join("libferrunchju.a");
    println!("cargo:rerun-if-changed={}", archive.display());
    if !archive.is_file() {
        stop(&format!(
            "no {}: run `rt lib` in crates/ferrunchju, or set FERRUNCHJU_LIB to the folder that has libferrunchju.a",
            archive.display()
        ));
    }
    println!("cargo:rustc-link-search=native={}", folder.display());
    println!("cargo:rustc-link-lib=static=ferrunchju");
}

/// Says why the crate cannot be built, and ends.
fn stop(why: &str) -> ! {
    eprintln!("error: {why}");
    std::process::exit(1)
}
