//! Links the proved library, which `rt lib` makes in crates/exports, and the memory functions of the kit beside it.
use std::env;
use std::path::PathBuf;

fn main() {
    let root = PathBuf::from(env::var("CARGO_MANIFEST_DIR").expect("set by cargo")).join("..");
    let library = root.join("crates/exports/out/libexports.a");
    let kit = PathBuf::from(env::var("RATTLE_KIT").unwrap_or("/opt/rattle".into()));
    assert!(
        library.exists(),
        "run `rt lib` in crates/exports first: {} is missing",
        library.display()
    );
    println!("cargo:rustc-link-arg={}", library.display());
    println!(
        "cargo:rustc-link-arg={}",
        kit.join("c/liblibc_c.a").display()
    );
    println!("cargo:rerun-if-changed={}", library.display());
    println!("cargo:rerun-if-env-changed=RATTLE_KIT");
}
