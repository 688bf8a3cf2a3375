//! Finds the folder of the unchanged source and writes the lines that take its files where they lie.

mod folder;

use std::path::PathBuf;
use std::{env, fs};

const FILES: [&str; 4] = ["spring3", "rod3_darboux", "slice_of_array", "sparse_square"];

fn main() {
    println!("cargo:rerun-if-changed=build.rs");
    println!("cargo:rerun-if-changed=folder.rs");
    let folder = folder::source_folder();
    let file = |name: &str| {
        let path = folder.join(name).with_extension("rs");
        assert!(
            path.is_file(),
            "{} is missing; set DEL_FEM_SRC",
            path.display()
        );
        println!("cargo:rerun-if-changed={}", path.display());
        format!("{:?}", path.to_str().expect("a path in UTF-8"))
    };
    let [spring3, rod3_darboux, slice_of_array, sparse_square] = FILES.map(file);
    let out = PathBuf::from(env::var_os("OUT_DIR").unwrap());
    // `#[path]` and not `include!`: sparse_square starts with `//!`, which only a module's own
    // file may do.
    let modules = format!(
        "#[path = {spring3}]\npub mod spring3;\n\
         #[path = {slice_of_array}]\npub mod slice_of_array;\n\
         #[path = {sparse_square}]\npub mod sparse_square;\n"
    );
    fs::write(out.join("modules.rs"), modules).unwrap();
    // `include!` and not `#[path]`: doors to its private functions stand in the same module.
    fs::write(
        out.join("rod3_darboux.rs"),
        format!("include!({rod3_darboux});\n"),
    )
    .unwrap();
}
