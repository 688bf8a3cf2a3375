//! Links the proved library, from the folder that HAIRBENCH_LIB names, else from the repository's
//! crates/bench_c/out.

fn main() {
    let here = std::env::var("CARGO_MANIFEST_DIR").expect("set by cargo");
    let folder =
        std::env::var("HAIRBENCH_LIB").unwrap_or(format!("{here}/../../../crates/bench_c/out"));
    println!("cargo:rustc-link-search=native={folder}");
    println!("cargo:rustc-link-lib=static=bench_c");
    println!("cargo:rerun-if-env-changed=HAIRBENCH_LIB");
    println!("cargo:rerun-if-changed={folder}/libbench_c.a");
}
