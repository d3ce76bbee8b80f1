//! Links the two comparisons of names, which `bash tests/bench/library.sh` writes.

use std::path::Path;

fn main() {
    let folder = Path::new(env!("CARGO_MANIFEST_DIR")).join("../../target/staticlib");
    println!("cargo:rustc-link-search=native={}", folder.display());
    println!("cargo:rustc-link-lib=static=compare_bench");
    println!(
        "cargo:rerun-if-changed={}",
        folder.join("libcompare_bench.a").display()
    );
}
