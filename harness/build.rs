//! Links the proved judge: the static library that `scripts/build pmjudge_c` writes.

use std::path::Path;

fn main() {
    let root = Path::new(env!("CARGO_MANIFEST_DIR")).join("..");
    let folder = root.join("target/staticlib");
    let library = folder.join("libpmjudge_c.a");
    assert!(
        library.exists(),
        "no target/staticlib/libpmjudge_c.a: run 'scripts/build pmjudge_c' at the root of the repository first"
    );
    println!("cargo::rerun-if-changed={}", library.display());
    println!("cargo::rustc-link-search=native={}", folder.display());
    println!("cargo::rustc-link-lib=static=pmjudge_c");
}
