//! Links the library that `rt lib` makes of crates/bench.

fn main() {
    let folder = concat!(env!("CARGO_MANIFEST_DIR"), "/../crates/bench/out");
    println!("cargo:rustc-link-search=native={folder}");
    println!("cargo:rustc-link-lib=static=bench");
    println!("cargo:rerun-if-changed={folder}/libbench.a");
}
