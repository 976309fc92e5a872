//! Links the proved leaves: `bench/run` has made the archive before.
fn main() {
    let root = std::env::var("CARGO_MANIFEST_DIR").expect("cargo names the folder");
    println!("cargo:rustc-link-search=native={root}/../crates/bench_leaves/out");
    println!("cargo:rustc-link-lib=static=bench_leaves");
    println!("cargo:rerun-if-changed={root}/../crates/bench_leaves/out/libbench_leaves.a");
}
