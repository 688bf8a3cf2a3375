//! Makes a copy of the source, of the stubs and of the reference bench in which every line that a
//! mutation changes asks a switch first. The copies are made anew at each build; none is kept.

#[path = "../reference/folder.rs"]
mod folder;
#[allow(dead_code)]
#[path = "src/mutations/mod.rs"]
mod mutations;

use mutations::{all, Edit};
use std::path::{Path, PathBuf};
use std::{env, fs};

/// Whose file it is, which decides how its paths read in the copy.
#[derive(Clone, Copy)]
enum Owner {
    Source,
    Reference,
    Geometry,
    Numbers,
    Mesh,
    Bench,
}

const FILES: [(Owner, &str); 20] = [
    (Owner::Source, "spring3.rs"),
    (Owner::Source, "slice_of_array.rs"),
    (Owner::Source, "sparse_square.rs"),
    (Owner::Source, "rod3_darboux.rs"),
    (Owner::Reference, "sparse_ilu.rs"),
    (Owner::Geometry, "del_geo_core/lib.rs"),
    (Owner::Geometry, "del_geo_core/edge3.rs"),
    (Owner::Geometry, "del_geo_core/mat3_col_major.rs"),
    (Owner::Geometry, "del_geo_core/mat4_col_major.rs"),
    (Owner::Geometry, "del_geo_core/matn_col_major.rs"),
    (Owner::Geometry, "del_geo_core/vec3.rs"),
    (Owner::Geometry, "del_geo_core/vec4.rs"),
    (Owner::Geometry, "del_geo_core/vecn.rs"),
    (Owner::Numbers, "num_traits/lib.rs"),
    (Owner::Mesh, "del_msh_cpu/lib.rs"),
    (Owner::Bench, "bench/calls.rs"),
    (Owner::Bench, "bench/given.rs"),
    (Owner::Bench, "bench/lines.rs"),
    (Owner::Bench, "bench/step.rs"),
    (Owner::Bench, "bench/strand.rs"),
];

fn main() {
    println!("cargo:rerun-if-changed=build.rs");
    println!("cargo:rerun-if-changed=src/mutations");
    let out = PathBuf::from(env::var_os("OUT_DIR").unwrap());
    let mut used = 0;
    for (owner, name) in FILES {
        let path = origin(owner, name);
        println!("cargo:rerun-if-changed={}", path.display());
        let text = fs::read_to_string(&path).unwrap_or_else(|e| panic!("{path:?}: {e}"));
        let (text, edits) = switched(name, text);
        used += edits;
        let copy = out.join(name);
        fs::create_dir_all(copy.parent().unwrap()).unwrap();
        fs::write(copy, rerouted(owner, text)).unwrap();
    }
    let edits: usize = all().iter().map(|m| m.edits.len()).sum();
    assert_eq!(used, edits, "an edit names no file of the copy");
    fs::write(out.join("modules.rs"), modules(&out)).unwrap();
}

/// Where the file lies that is copied.
fn origin(owner: Owner, name: &str) -> PathBuf {
    let (folder, file) = name.split_once('/').unwrap_or(("", name));
    let workspace = folder::workspace();
    match owner {
        Owner::Source => folder::source_folder().join(file),
        Owner::Reference => workspace.join("reference/src").join(file),
        Owner::Bench => workspace.join("bench/src").join(file),
        _ => workspace.join("stubs").join(folder).join("src").join(file),
    }
}

/// The text with the switches of all its mutations, and the number of edits made. Marks stand in for
/// the pieces until all are found, so that none is found in what another brings.
fn switched(name: &str, pristine: String) -> (String, usize) {
    let mut text = pristine.clone();
    let mut pieces: Vec<&Edit> = vec![];
    for edit in all().iter().flat_map(|m| m.edits) {
        let known = pieces.iter().any(|e| e.original == edit.original);
        if edit.file != name || known {
            continue;
        }
        let found = [&pristine, &text].map(|text| text.matches(edit.original).count());
        assert_eq!(found, [1, 1], "{name}: {:?}", edit.original);
        text = text.replace(edit.original, &mark(pieces.len()));
        pieces.push(edit);
    }
    let mut made = 0;
    for (i, edit) in pieces.iter().enumerate() {
        let (guarded, edits) = guarded(edit);
        text = text.replace(&mark(i), &guarded);
        made += edits;
    }
    (text, made)
}

fn mark(i: usize) -> String {
    format!("<<{i}>>")
}

/// The original text, behind the switches of all mutations that change it.
fn guarded(edit: &Edit) -> (String, usize) {
    let original = edit.original;
    let mut text = String::new();
    let mut edits = 0;
    for (index, mutation) in all().iter().enumerate() {
        let same = |e: &&Edit| e.file == edit.file && e.original == original;
        for edit in mutation.edits.iter().filter(same) {
            let switch = format!("ROOT::is({})", index + 1);
            if edit.changed.contains("SWITCH") {
                return (edit.changed.replace("SWITCH", &switch), 1);
            }
            text += &format!("if {switch} {{ {} }} else ", edit.changed);
            edits += 1;
        }
    }
    text += &format!("{{ {original} }}");
    // A statement stays one; an expression may stand anywhere.
    match original.ends_with([';', '}']) {
        true => (text, edits),
        false => (format!("({text})"), edits),
    }
}

/// Paths as they must read in the copy.
fn rerouted(owner: Owner, text: String) -> String {
    let own = match owner {
        Owner::Geometry => "crate::del_geo_core::",
        Owner::Bench => "crate::bench::",
        _ => "crate::",
    };
    let text = text.replace("crate::", own);
    let names = ["del_geo_core::", "del_msh_cpu::", "num_traits::"];
    let text = names.iter().fold(text, |text, name| {
        let once = text.replace(&format!("crate::{name}"), name);
        once.replace(name, &format!("crate::{name}"))
    });
    text.replace("reference::", "crate::")
        .replace("ROOT::", "crate::")
}

/// The lines that take the files.
fn modules(out: &Path) -> String {
    let line = |name: &str, file: &str| {
        let path = out.join(file);
        format!("#[path = {path:?}]\npub mod {name};\n")
    };
    let bench: String = ["calls", "given", "lines", "step", "strand"]
        .map(|name| line(name, &format!("bench/{name}.rs")))
        .concat();
    let others = [
        line("spring3", "spring3.rs"),
        line("slice_of_array", "slice_of_array.rs"),
        line("sparse_square", "sparse_square.rs"),
        line("rod3_darboux", "rod3_darboux.rs"),
        line("sparse_ilu", "sparse_ilu.rs"),
        line("del_geo_core", "del_geo_core/lib.rs"),
        line("num_traits", "num_traits/lib.rs"),
        line("del_msh_cpu", "del_msh_cpu/lib.rs"),
    ];
    format!("{}pub mod bench {{\n{bench}}}\n", others.concat())
}
