//! Links libbench_c.a from the folder that HAIRBENCH_LIB names, else from crates/bench_c/out of the repository.

use std::path::PathBuf;

fn main() {
    println!("cargo:rerun-if-env-changed=HAIRBENCH_LIB");
    let folder = match std::env::var_os("HAIRBENCH_LIB") {
        Some(folder) => PathBuf::from(folder),
        None => PathBuf::from("../crates/bench_c/out"),
    };
    let library = folder.join("libbench_c.a");
    println!("cargo:rerun-if-changed={}", library.display());
    let folder = match folder.canonicalize() {
        Ok(folder) if library.is_file() => folder,
        _ => {
            eprintln!(
                "{} is not there: run `rt lib` in crates/bench_c, or set HAIRBENCH_LIB",
                library.display()
            );
            std::process::exit(1);
        }
    };
    println!("cargo:rustc-link-search=native={}", folder.display());
    println!("cargo:rustc-link-lib=static=bench_c");
}
