//! Links the library that `rt lib` makes of crates/bench_lib, and the kit's calls of malloc and free.
fn main() {
    let here = env!("CARGO_MANIFEST_DIR");
    let kit = std::env::var("RATTLE_KIT").unwrap_or_else(|_| "/opt/rattle".to_string());
    for archive in [format!("{here}/../crates/bench_lib/out/libbench_lib.a"), format!("{kit}/c/liblibc_c.a")] {
        println!("cargo:rerun-if-changed={archive}");
        println!("cargo:rustc-link-arg={archive}");
    }
}
